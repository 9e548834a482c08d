// new: by the source's own
// in: FallibleIterator for InspectErr
fn last(self) -> Result<Option<Self::Item>, Self::Error> {
    let mut f = self.f;
    failed(self.it.last(), &mut f, &InspectErrFail)
}
