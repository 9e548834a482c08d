
/// Any collection that Rust can extend, as a collection that is made of items.
pub struct Extended<B>(pub B);

impl<T, B: Extend<T>> Collect<T> for Extended<B> {
    #[inline(always)]
    fn push_one(&mut self, item: T) -> Result<(), AllocError> {
        self.0.extend(Some(item));
        Ok(())
    }
}
