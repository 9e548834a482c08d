// new: by the source's own, as the original's
// in: FallibleIterator for Fuse
fn last(self) -> Result<Option<Self::Item>, Self::Error> {
    if self.ended {
        return Ok(None);
    }
    self.it.last()
}
