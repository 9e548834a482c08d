// The adapter that calls a closure on each item.

use crate::fallible_contract::folds::Turn;
use crate::fallible_contract::passing::{Outcome, Pass, passed};
use crate::fallible_core::passing::{drive_back_passing, drive_passing};
use crate::fallible_core::traits::FallibleIterator;
use crate::fallible_core::traits::double_ended::DoubleEndedFallibleIterator;
use core::fmt;

/// What the closure returns for each item. If it fails, its failure is yielded, and the item is lost.
#[derive(Clone)]
#[must_use = "an iterator draws nothing until it is asked"]
pub struct Map<T, F> {
    pub(crate) it: T,
    pub(crate) f: F,
}

// It requires nothing of the closure.
impl<T: fmt::Debug, F> fmt::Debug for Map<T, F> {
    fn fmt(&self, f: &mut fmt::Formatter<'_>) -> fmt::Result {
        let it = &self.it;
        write!(f, "Map {{ it: {it:?} }}")
    }
}

impl<I: FallibleIterator, B, F: FnMut(I::Item) -> Result<B, I::Error>> FallibleIterator
    for Map<I, F>
{
    type Item = B;

    type Error = I::Error;

    /// Draws once, and calls the closure on an item.
    fn next(&mut self) -> Result<Option<B>, I::Error> {
        passed(self.it.next(), &mut self.f, &MapPass)
    }

    fn size_hint(&self) -> (usize, Option<usize>) {
        self.it.size_hint()
    }

    #[inline(always)]
    fn drive<C, R, K: Turn<C, B, R>>(
        &mut self,
        state: &mut C,
        turn: &K,
    ) -> Result<Option<R>, I::Error> {
        drive_passing(&mut self.it, &mut self.f, &MapPass, state, turn)
    }

    #[inline(always)]
    fn try_fold<Value, Failed, Step>(&mut self, init: Value, f: Step) -> Result<Value, Failed>
    where
        Failed: From<Self::Error>,
        Step: FnMut(Value, Self::Item) -> Result<Value, Failed>,
    {
        crate::fallible_core::passing::try_fold_passing(
            &mut self.it,
            &mut self.f,
            &MapPass,
            init,
            f,
        )
    }
}

impl<I: DoubleEndedFallibleIterator, B, F: FnMut(I::Item) -> Result<B, I::Error>>
    DoubleEndedFallibleIterator for Map<I, F>
{
    /// Draws once from the back, and calls the closure on an item.
    fn next_back(&mut self) -> Result<Option<B>, I::Error> {
        passed(self.it.next_back(), &mut self.f, &MapPass)
    }

    #[inline(always)]
    fn drive_back<C, R, K: Turn<C, B, R>>(
        &mut self,
        state: &mut C,
        turn: &K,
    ) -> Result<Option<R>, I::Error> {
        drive_back_passing(&mut self.it, &mut self.f, &MapPass, state, turn)
    }

    #[inline(always)]
    fn try_rfold<Value, Failed, Step>(&mut self, init: Value, f: Step) -> Result<Value, Failed>
    where
        Failed: From<Self::Error>,
        Step: FnMut(Value, Self::Item) -> Result<Value, Failed>,
    {
        crate::fallible_core::passing::try_rfold_passing(
            &mut self.it,
            &mut self.f,
            &MapPass,
            init,
            f,
        )
    }
}

// What the closure makes of an item.
struct MapPass;

impl<X, B, E, F: FnMut(X) -> Result<B, E>> Pass<F, X, E> for MapPass {
    type Kept = B;

    type Answer = Result<B, E>;

    #[inline(always)]
    fn pass(&self, state: &mut F, item: X) -> Outcome<B, E> {
        match state(item) {
            Ok(y) => Outcome::Kept(y),
            Err(e) => Outcome::Failure(e),
        }
    }
}
