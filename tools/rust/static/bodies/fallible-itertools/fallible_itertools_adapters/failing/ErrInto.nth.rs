// new: the proved `drive_to`, for this goal alone
// in: FallibleIterator for ErrInto
// of: drive_to b151975a
fn nth(&mut self, n: usize) -> Result<Option<I::Item>, E> {
    failed(
        self.it.nth(n),
        &mut (),
        &IntoFail::<E> { made: PhantomData },
    )
}
