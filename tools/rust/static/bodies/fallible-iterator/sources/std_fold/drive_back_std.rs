// changed: by the std iterator's own fold, whose closure borrows the state and what the fold returns; the proved body's is by `next`, and carries both
// proved: e0a55a80
pub(crate) fn drive_back_std<
    I: core::iter::DoubleEndedIterator,
    A,
    E,
    M: Element<I::Item, A, E>,
    C,
    R,
    K: Turn<C, A, R>,
>(it: &mut I, elements: &M, state: &mut C, turn: &K) -> Result<Option<R>, E>
{
    let mut answer = Ok(None);
    let _ = it.try_rfold((), |(), element| match turn_of_element(turn, elements, state, element) {
        Ok(()) => Some(()),
        Err(other) => {
            answer = other;
            None
        }
    });
    answer
}
