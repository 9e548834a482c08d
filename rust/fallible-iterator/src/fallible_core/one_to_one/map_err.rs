// The adapter that calls a closure on each failure.

use crate::fallible_contract::failing::{Fail, failed};
use crate::fallible_contract::folds::Turn;
use crate::fallible_core::failing::{drive_back_failing, drive_failing};
use crate::fallible_core::traits::FallibleIterator;
use crate::fallible_core::traits::double_ended::DoubleEndedFallibleIterator;

/// The source with each failure replaced by what the closure returns for it. Items and `Ok(None)` pass.
#[derive(Clone, Debug)]
#[must_use = "an iterator draws nothing until it is asked"]
pub struct MapErr<I, F> {
    pub(crate) it: I,
    pub(crate) f: F,
}

impl<I: FallibleIterator, B, F: FnMut(I::Error) -> B> FallibleIterator for MapErr<I, F> {
    type Item = I::Item;

    type Error = B;

    /// Draws once, and calls the closure if a failure came.
    fn next(&mut self) -> Result<Option<I::Item>, B> {
        failed(self.it.next(), &mut self.f, &MapErrFail)
    }

    fn size_hint(&self) -> (usize, Option<usize>) {
        self.it.size_hint()
    }

    #[inline(always)]
    fn drive<C, R, K: Turn<C, I::Item, R>>(
        &mut self,
        state: &mut C,
        turn: &K,
    ) -> Result<Option<R>, B> {
        drive_failing(&mut self.it, &mut self.f, &MapErrFail, state, turn)
    }

    fn count(self) -> Result<usize, Self::Error> {
        let mut f = self.f;
        failed(self.it.count(), &mut f, &MapErrFail)
    }

    fn last(self) -> Result<Option<Self::Item>, Self::Error> {
        let mut f = self.f;
        failed(self.it.last(), &mut f, &MapErrFail)
    }

    fn nth(&mut self, n: usize) -> Result<Option<I::Item>, B> {
        failed(self.it.nth(n), &mut self.f, &MapErrFail)
    }

    crate::by_drive!(drive);
}

impl<I: DoubleEndedFallibleIterator, B, F: FnMut(I::Error) -> B> DoubleEndedFallibleIterator
    for MapErr<I, F>
{
    /// Draws once from the back, and calls the closure if a failure came.
    fn next_back(&mut self) -> Result<Option<I::Item>, B> {
        failed(self.it.next_back(), &mut self.f, &MapErrFail)
    }

    #[inline(always)]
    fn drive_back<C, R, K: Turn<C, I::Item, R>>(
        &mut self,
        state: &mut C,
        turn: &K,
    ) -> Result<Option<R>, B> {
        drive_back_failing(&mut self.it, &mut self.f, &MapErrFail, state, turn)
    }

    crate::by_drive!(drive_back);
}

// What the closure returns for a failure.
struct MapErrFail;

impl<D, E, F: FnMut(D) -> E> Fail<F, D> for MapErrFail {
    type Failure = E;

    #[inline(always)]
    fn fail(&self, state: &mut F, failure: D) -> E {
        state(failure)
    }
}
