// The adapter that swaps the ends.

use crate::fallible_contract::folds::Turn;
use crate::fallible_core::traits::FallibleIterator;
use crate::fallible_core::traits::double_ended::DoubleEndedFallibleIterator;

/// The source with its ends swapped: a draw from the front is a draw of the source from the back, and the other way round.
#[derive(Clone, Debug)]
#[must_use = "an iterator draws nothing until it is asked"]
pub struct Rev<I> {
    pub(crate) it: I,
}

impl<I: DoubleEndedFallibleIterator> FallibleIterator for Rev<I> {
    type Item = I::Item;

    type Error = I::Error;

    /// Draws the source once from the back.
    fn next(&mut self) -> Result<Option<I::Item>, I::Error> {
        self.it.next_back()
    }

    fn size_hint(&self) -> (usize, Option<usize>) {
        self.it.size_hint()
    }

    #[inline(always)]
    fn drive<C, R, K: Turn<C, I::Item, R>>(
        &mut self,
        state: &mut C,
        turn: &K,
    ) -> Result<Option<R>, I::Error> {
        self.it.drive_back(state, turn)
    }

    crate::by_drive!(drive);
}

impl<I: DoubleEndedFallibleIterator> DoubleEndedFallibleIterator for Rev<I> {
    /// Draws the source once from the front.
    fn next_back(&mut self) -> Result<Option<I::Item>, I::Error> {
        self.it.next()
    }

    #[inline(always)]
    fn drive_back<C, R, K: Turn<C, I::Item, R>>(
        &mut self,
        state: &mut C,
        turn: &K,
    ) -> Result<Option<R>, I::Error> {
        self.it.drive(state, turn)
    }

    crate::by_drive!(drive_back);
}
