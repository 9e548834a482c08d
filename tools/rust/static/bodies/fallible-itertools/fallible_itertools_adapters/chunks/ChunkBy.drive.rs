// changed: no allocator is passed
// proved: 5bbfde83
fn drive<C, R, T: Turn<C, (K, Vec<I::Item>), R>>(
    &mut self,
    state: &mut C,
    turn: &T,
) -> Result<Option<R>, I::Error> {
    let adapter = ChunkByStage;
    drive_stage(&mut self.it, &mut self.stage, &adapter, state, turn)
}
