// changed: nothing is refused
// proved: 63a2f3e4
fn turn(&self, state: &mut HashSet<A>, item: A) -> ControlFlow<Option<AllocError>, ()>
{
    if state.insert(item) {
        ControlFlow::Continue(())
    } else {
        ControlFlow::Break(None)
    }
}
