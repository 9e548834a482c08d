// changed: the loop of the proved `drive_to`, for this goal
// proved: 1fc253ee
// of: drive_to ebfa6894
fn nth(&mut self, n: usize) -> Result<Option<Self::Item>, Self::Error> {
    let mut left = n;
    while 0 < left {
        match self.next() {
            Ok(Some(_)) => {}
            Ok(None) => return Ok(None),
            Err(e) => return Err(e),
        }
        left -= 1;
    }
    self.next()
}
