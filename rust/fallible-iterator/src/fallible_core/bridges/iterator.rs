// The std iterator over what a fallible iterator returns.

use crate::fallible_core::traits::FallibleIterator;
use crate::fallible_core::traits::double_ended::DoubleEndedFallibleIterator;

/// A std iterator over results: each item is an `Ok`, each failure an `Err`, and `Ok(None)` is `None`. After a failure and after a `None` the next call draws again.
///
/// It is double-ended if its source is.
#[derive(Clone, Debug)]
#[must_use = "an iterator draws nothing until it is asked"]
pub struct Iterator<I> {
    pub(crate) it: I,
}

impl<I: FallibleIterator> core::iter::Iterator for Iterator<I> {
    type Item = Result<I::Item, I::Error>;

    /// Draws the source once.
    fn next(&mut self) -> Option<Result<I::Item, I::Error>> {
        self.it.next().transpose()
    }

    /// Returns `(0, None)`: a source's hint counts items alone, and here failures are elements too.
    fn size_hint(&self) -> (usize, Option<usize>) {
        (0, None)
    }
}

impl<I: DoubleEndedFallibleIterator> core::iter::DoubleEndedIterator for Iterator<I> {
    /// Draws the source once from the back.
    fn next_back(&mut self) -> Option<Result<I::Item, I::Error>> {
        self.it.next_back().transpose()
    }
}
