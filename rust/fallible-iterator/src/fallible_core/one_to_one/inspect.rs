// The adapter that calls a closure on a reference to each item.

use crate::fallible_contract::folds::Turn;
use crate::fallible_contract::passing::{Outcome, Pass, passed};
use crate::fallible_core::passing::{drive_back_passing, drive_passing};
use crate::fallible_core::traits::FallibleIterator;
use crate::fallible_core::traits::double_ended::DoubleEndedFallibleIterator;

/// The items of the source. The closure is called on a reference to each first. An item on which it fails is lost, and its failure is yielded.
#[derive(Clone, Debug)]
#[must_use = "an iterator draws nothing until it is asked"]
pub struct Inspect<I, F> {
    pub(crate) it: I,
    pub(crate) f: F,
}

impl<I: FallibleIterator, F: FnMut(&I::Item) -> Result<(), I::Error>> FallibleIterator
    for Inspect<I, F>
{
    type Item = I::Item;

    type Error = I::Error;

    /// Draws once, and calls the closure on an item.
    fn next(&mut self) -> Result<Option<I::Item>, I::Error> {
        passed(self.it.next(), &mut self.f, &InspectPass)
    }

    fn size_hint(&self) -> (usize, Option<usize>) {
        self.it.size_hint()
    }

    #[inline(always)]
    fn drive<C, R, K: Turn<C, I::Item, R>>(
        &mut self,
        state: &mut C,
        turn: &K,
    ) -> Result<Option<R>, I::Error> {
        drive_passing(&mut self.it, &mut self.f, &InspectPass, state, turn)
    }

    #[inline(always)]
    fn try_fold<Value, Failed, Step>(&mut self, init: Value, f: Step) -> Result<Value, Failed>
    where
        Failed: From<Self::Error>,
        Step: FnMut(Value, Self::Item) -> Result<Value, Failed>,
    {
        crate::fallible_core::passing::try_fold_passing(
            &mut self.it,
            &mut self.f,
            &InspectPass,
            init,
            f,
        )
    }
}

impl<I: DoubleEndedFallibleIterator, F: FnMut(&I::Item) -> Result<(), I::Error>>
    DoubleEndedFallibleIterator for Inspect<I, F>
{
    /// Draws once from the back, and calls the closure on an item.
    fn next_back(&mut self) -> Result<Option<I::Item>, I::Error> {
        passed(self.it.next_back(), &mut self.f, &InspectPass)
    }

    #[inline(always)]
    fn drive_back<C, R, K: Turn<C, I::Item, R>>(
        &mut self,
        state: &mut C,
        turn: &K,
    ) -> Result<Option<R>, I::Error> {
        drive_back_passing(&mut self.it, &mut self.f, &InspectPass, state, turn)
    }

    #[inline(always)]
    fn try_rfold<Value, Failed, Step>(&mut self, init: Value, f: Step) -> Result<Value, Failed>
    where
        Failed: From<Self::Error>,
        Step: FnMut(Value, Self::Item) -> Result<Value, Failed>,
    {
        crate::fallible_core::passing::try_rfold_passing(
            &mut self.it,
            &mut self.f,
            &InspectPass,
            init,
            f,
        )
    }
}

// What becomes of an item after the closure's call.
struct InspectPass;

impl<X, E, F: FnMut(&X) -> Result<(), E>> Pass<F, X, E> for InspectPass {
    type Kept = X;

    type Answer = Result<(), E>;

    #[inline(always)]
    fn pass(&self, state: &mut F, item: X) -> Outcome<X, E> {
        match state(&item) {
            Ok(()) => Outcome::Kept(item),
            Err(e) => Outcome::Failure(e),
        }
    }
}
