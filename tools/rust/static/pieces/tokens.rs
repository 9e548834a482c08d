

impl<I: FallibleIterator<Item = (usize, u8)> + Clone> Clone for Tokens<I> {
    fn clone(&self) -> Self {
        Tokens {
            ahead: self.ahead.clone(),
        }
    }
}

impl<I: FallibleIterator<Item = (usize, u8)> + core::fmt::Debug> core::fmt::Debug for Tokens<I> {
    fn fmt(&self, f: &mut core::fmt::Formatter<'_>) -> core::fmt::Result {
        f.debug_struct("Tokens").field("ahead", &self.ahead).finish()
    }
}
