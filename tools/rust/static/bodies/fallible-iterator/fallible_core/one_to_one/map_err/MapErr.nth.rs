// new: the proved `drive_to`, for this goal alone
// in: FallibleIterator for MapErr
// of: drive_to 38e78190
fn nth(&mut self, n: usize) -> Result<Option<I::Item>, B> {
    failed(self.it.nth(n), &mut self.f, &MapErrFail)
}
