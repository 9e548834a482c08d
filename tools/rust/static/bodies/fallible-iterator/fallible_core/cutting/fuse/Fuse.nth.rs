// new: the proved `drive_to`, for this goal alone
// in: FallibleIterator for Fuse
// of: drive_to ec35022f
fn nth(&mut self, n: usize) -> Result<Option<I::Item>, I::Error> {
    let Fuse { it, ended } = self;
    if *ended {
        return Ok(None);
    }
    match it.nth(n) {
        Ok(Some(x)) => Ok(Some(x)),
        Ok(None) => {
            *ended = true;
            Ok(None)
        }
        Err(e) => Err(e),
    }
}
