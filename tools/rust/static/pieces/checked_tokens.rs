
impl<I: FallibleIterator<Item = (usize, u8)> + Clone> Clone for CheckedTokens<I> {
    fn clone(&self) -> Self {
        CheckedTokens {
            ahead: self.ahead.clone(),
            nesting: self.nesting.clone(),
            over: self.over,
        }
    }
}

impl<I: FallibleIterator<Item = (usize, u8)> + core::fmt::Debug> core::fmt::Debug for CheckedTokens<I> {
    fn fmt(&self, f: &mut core::fmt::Formatter<'_>) -> core::fmt::Result {
        f.debug_struct("CheckedTokens")
            .field("ahead", &self.ahead)
            .field("nesting", &self.nesting)
            .field("over", &self.over)
            .finish()
    }
}
