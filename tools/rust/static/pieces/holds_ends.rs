
impl<I: FallibleIterator> Peekable<I> {
    /// That `peek` holds the end that it drew, which `next` then returns. `fallible-itertools` asks, and takes what it holds
    /// for its own over a crate that doesn't say.
    #[doc(hidden)]
    pub const HOLDS_ENDS: bool = true;
}
