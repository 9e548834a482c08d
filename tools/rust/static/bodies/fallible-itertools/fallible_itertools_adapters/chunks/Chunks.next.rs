// changed: no allocator is passed
// proved: e8b8dd07
fn next(&mut self) -> Result<Option<Vec<I::Item>>, I::Error> {
    match self.stage.1.take() {
        Some(stop) => stop_answer(stop),
        None => {
            let adapter = ChunksStage;
            let (answer, due) = filled(&mut self.it, &mut self.stage.0, &adapter);
            put_due(&mut self.stage.1, due);
            answer
        }
    }
}
