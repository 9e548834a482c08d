// new: the proved `drive_to`, for this goal alone
// in: FallibleIterator for InspectErr
// of: drive_to d07ff835
fn nth(&mut self, n: usize) -> Result<Option<I::Item>, I::Error> {
    failed(self.it.nth(n), &mut self.f, &InspectErrFail)
}
