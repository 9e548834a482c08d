//! What becomes a fallible iterator.

use crate::fallible_core::traits::FallibleIterator;

/// A value that becomes a fallible iterator. Every fallible iterator is one, and becomes itself.
pub trait IntoFallibleIterator {
    /// The type of its items.
    type Item;

    /// The type of its failures.
    type Error;

    /// The fallible iterator that the value becomes.
    type IntoFallibleIter: FallibleIterator<Item = Self::Item, Error = Self::Error>;

    /// Returns the fallible iterator that the value becomes. A fallible iterator returns itself, and draws nothing.
    ///
    /// <details><summary>Contract</summary>
    ///
    /// As it is proved, in [these words](crate::words):
    ///
    /// ```text
    /// ensures { into_gives self result }
    /// ```
    /// </details>
    fn into_fallible_iter(self) -> Self::IntoFallibleIter;
}

impl<I: FallibleIterator> IntoFallibleIterator for I {
    type Item = I::Item;

    type Error = I::Error;

    type IntoFallibleIter = I;

    fn into_fallible_iter(self) -> I {
        self
    }
}
