// new: by the source's own
// in: FallibleIterator for ErrInto
fn count(self) -> Result<usize, E> {
    failed(self.it.count(), &mut (), &IntoFail::<E> { made: PhantomData })
}
