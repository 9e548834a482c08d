// changed: no allocator is passed
// proved: c69b6f0b
fn next(&mut self) -> Result<Option<(K, Vec<I::Item>)>, I::Error> {
    let adapter = ChunkByStage;
    next_until(&mut self.it, &mut self.stage, &adapter)
}
