// changed: by the type's own `try_fold` or `try_rfold`
// proved: 7dbdca37
fn drive<C, R, K: Turn<C, Self::Item, R>>(
    &mut self,
    state: &mut C,
    turn: &K,
) -> Result<Option<R>, Self::Error> {
    let folded = self.try_fold((), |(), x| match turn.turn(state, x) {
        ControlFlow::Continue(()) => Ok(()),
        ControlFlow::Break(stop) => Err(Stop::Turn(stop)),
    });
    match folded {
        Ok(()) => Ok(None),
        Err(Stop::Turn(stop)) => Ok(Some(stop)),
        Err(Stop::Failure(e)) => Err(e),
    }
}
