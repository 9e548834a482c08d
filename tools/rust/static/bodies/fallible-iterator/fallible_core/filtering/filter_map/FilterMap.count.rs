// new: the proved `drive_to`, for this goal alone
// in: FallibleIterator for FilterMap
// of: drive_to 27677361
fn count(mut self) -> Result<usize, I::Error> {
    let mut number = 0;
    match drive_count_passing(&mut self.it, &mut self.f, &FilterMapPass, &mut number) {
        Ok(None) => Ok(number),
        Ok(Some(never)) => match never {},
        Err(e) => Err(e),
    }
}
