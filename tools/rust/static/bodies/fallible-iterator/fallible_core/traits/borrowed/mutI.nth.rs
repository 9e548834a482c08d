// new: the proved `drive_to`, for this goal alone
// in: FallibleIterator for &mut I
// of: drive_to 69b5ae3a
fn nth(&mut self, n: usize) -> Result<Option<I::Item>, I::Error> {
    (**self).nth(n)
}
