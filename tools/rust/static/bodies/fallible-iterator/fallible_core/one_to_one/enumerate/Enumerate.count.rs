// new: by the source's own, as the original's
// in: FallibleIterator for Enumerate
fn count(self) -> Result<usize, Self::Error> {
    self.it.count()
}
