// changed: a clone is never refused
// proved: 4670898c
fn on_item(&self, p: &mut (bool, X), item: X) -> Emitted<X, X, E> {
    if p.0 {
        separated(Ok(p.1.clone()), item)
    } else {
        p.0 = true;
        one(Ok(Some(item)))
    }
}
