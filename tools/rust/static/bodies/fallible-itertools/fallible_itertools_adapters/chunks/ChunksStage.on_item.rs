// changed: no allocator is passed, and none refuses
// proved: 7efe7b5d
fn on_item(
    &self,
    p: &mut ((usize, Option<Vec<X>>), bool),
    item: X,
) -> Emitted<Vec<X>, Stop<E>, E> {
    if grown(p.0.0, &mut p.1, &mut p.0.1, item) < p.0.0 {
        None
    } else {
        p.1 = true;
        match p.0.1.take() {
            Some(whole) => one(Ok(Some(whole))),
            None => unreachable!(),
        }
    }
}
