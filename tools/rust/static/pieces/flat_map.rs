
impl<I: Clone, U, F: Clone, J: Clone> Clone for FlatMap<I, U, F, J> {
    fn clone(&self) -> Self {
        FlatMap {
            it: self.it.clone(),
            in_hand: self.in_hand.clone(),
            made: PhantomData,
        }
    }
}

impl<I: core::fmt::Debug, U, F, J: core::fmt::Debug> core::fmt::Debug for FlatMap<I, U, F, J> {
    fn fmt(&self, f: &mut core::fmt::Formatter<'_>) -> core::fmt::Result {
        f.debug_struct("FlatMap")
            .field("it", &self.it)
            .field("in_hand", &self.in_hand)
            .finish()
    }
}
