// changed: no allocator is passed
// proved: 9a7b7af4
fn on_item(&self, p: &mut (Option<(K, Vec<X>)>, F), item: X) -> Emitted<(K, Vec<X>), Stop<E>, E> {
    match (p.1)(&item) {
        Ok(key) => grouped(&mut p.0, key, item),
        Err(e) => let_go(p.0.take(), Some(e)),
    }
}
