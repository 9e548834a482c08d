// changed: `insert` is never refused
// proved: df7b60e6
fn pass(&self, state: &mut HashMap<X, bool>, item: X) -> Outcome<X, E> {
    if let Some(yielded) = state.get_mut(&item) {
        let before = *yielded;
        *yielded = true;
        return unless_yielded(before, item);
    }
    state.insert(item, false);
    Outcome::LeftOut
}
