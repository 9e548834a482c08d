// new: by the source's own, as the original's
// in: FallibleIterator for Fuse
fn count(self) -> Result<usize, Self::Error> {
    if self.ended {
        return Ok(0);
    }
    self.it.count()
}
