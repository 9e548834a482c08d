// The std iterator over the items of a fallible iterator that never fails.

use crate::fallible_core::traits::FallibleIterator;

/// A std iterator over the items of a source that can never fail again; `Ok(None)` is `None`. After a `None` the next call draws again.
#[derive(Clone, Debug)]
#[must_use = "an iterator draws nothing until it is asked"]
pub struct Unwrap<I> {
    pub(crate) it: I,
}

impl<I: FallibleIterator> core::iter::Iterator for Unwrap<I>
where
    I::Error: core::fmt::Debug,
{
    type Item = I::Item;

    /// Draws the source once. It doesn't fail.
    fn next(&mut self) -> Option<I::Item> {
        self.it.next().unwrap()
    }

    /// Returns 0 and the source's upper bound.
    fn size_hint(&self) -> (usize, Option<usize>) {
        (0, self.it.size_hint().1)
    }
}
