// new: by the source's own
// in: FallibleIterator for InspectErr
fn count(self) -> Result<usize, Self::Error> {
    let mut f = self.f;
    failed(self.it.count(), &mut f, &InspectErrFail)
}
