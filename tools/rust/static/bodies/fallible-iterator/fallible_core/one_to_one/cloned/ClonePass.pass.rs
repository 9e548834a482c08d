// changed: a clone is never refused
// proved: 523c3659
fn pass(&self, _state: &mut (), item: &'b T) -> Outcome<T, E> {
    Outcome::Kept(T::clone(item))
}
