// new: the proved `drive_to`, for this goal alone
// in: FallibleIterator for Filter
// of: drive_to 023d7635
fn count(mut self) -> Result<usize, I::Error> {
    let mut number = 0;
    match drive_count_passing(&mut self.it, &mut self.f, &FilterPass, &mut number) {
        Ok(None) => Ok(number),
        Ok(Some(never)) => match never {},
        Err(e) => Err(e),
    }
}
