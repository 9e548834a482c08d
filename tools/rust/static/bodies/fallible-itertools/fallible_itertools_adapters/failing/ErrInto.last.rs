// new: by the source's own
// in: FallibleIterator for ErrInto
fn last(self) -> Result<Option<I::Item>, E> {
    failed(self.it.last(), &mut (), &IntoFail::<E> { made: PhantomData })
}
