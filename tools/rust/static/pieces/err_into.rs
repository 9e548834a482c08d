
impl<I: Clone, E> Clone for ErrInto<I, E> {
    fn clone(&self) -> Self {
        ErrInto {
            it: self.it.clone(),
            made: PhantomData,
        }
    }
}

impl<I: core::fmt::Debug, E> core::fmt::Debug for ErrInto<I, E> {
    fn fmt(&self, f: &mut core::fmt::Formatter<'_>) -> core::fmt::Result {
        f.debug_struct("ErrInto").field("it", &self.it).finish()
    }
}
