// new: the proved `drive_to`, for this goal alone
// in: FallibleIterator for Enumerate
// of: drive_to 8b1f46ad
fn nth(&mut self, n: usize) -> Result<Option<(usize, I::Item)>, I::Error> {
    let mut left = n;
    self.drive(&mut left, &NthTurn)
}
