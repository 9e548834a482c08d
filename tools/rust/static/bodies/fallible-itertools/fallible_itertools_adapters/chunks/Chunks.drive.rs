// changed: no allocator is passed
// proved: c80b6f85
fn drive<C, R, K: Turn<C, Vec<I::Item>, R>>(
    &mut self,
    state: &mut C,
    turn: &K,
) -> Result<Option<R>, I::Error> {
    let adapter = ChunksStage;
    drive_stage(&mut self.it, &mut self.stage, &adapter, state, turn)
}
