// changed: the state is borrowed, and not carried
// proved: 0755243d
fn turn_of_element<Z, A, E, M: Element<Z, A, E>, C, R, K: Turn<C, A, R>>(
    turn: &K,
    elements: &M,
    state: &mut C,
    element: Z,
) -> Result<(), Result<Option<R>, E>>
{
    match elements.read(element) {
        Ok(x) => match turn.turn(state, x) {
            ControlFlow::Continue(()) => Ok(()),
            ControlFlow::Break(stop) => Err(Ok(Some(stop))),
        },
        Err(e) => Err(Err(e)),
    }
}
