// The adapter that leaves out the items that a predicate rejects.

use crate::fallible_contract::folds::{Turn, answer_within};
use crate::fallible_contract::passing::{Outcome, Pass};
use crate::fallible_core::passing::{
    PassDrawTurn, drive_back_passing, drive_count_passing, drive_passing,
};
use crate::fallible_core::traits::FallibleIterator;
use crate::fallible_core::traits::double_ended::DoubleEndedFallibleIterator;

/// The items for which the predicate returns true. An item on which it fails is lost, and its failure is yielded.
#[derive(Clone, Debug)]
#[must_use = "an iterator draws nothing until it is asked"]
pub struct Filter<I, F> {
    pub(crate) it: I,
    pub(crate) f: F,
}

impl<I: FallibleIterator, F: FnMut(&I::Item) -> Result<bool, I::Error>> FallibleIterator
    for Filter<I, F>
{
    type Item = I::Item;

    type Error = I::Error;

    /// Draws until an item is kept, or a failure or `Ok(None)` comes. It calls the predicate on each item.
    fn next(&mut self) -> Result<Option<I::Item>, I::Error> {
        let turn = PassDrawTurn {
            adapter: &FilterPass,
        };
        answer_within(self.it.drive(&mut self.f, &turn))
    }

    fn size_hint(&self) -> (usize, Option<usize>) {
        (0, self.it.size_hint().1)
    }

    #[inline(always)]
    fn drive<C, R, K: Turn<C, I::Item, R>>(
        &mut self,
        state: &mut C,
        turn: &K,
    ) -> Result<Option<R>, I::Error> {
        drive_passing(&mut self.it, &mut self.f, &FilterPass, state, turn)
    }

    fn count(mut self) -> Result<usize, I::Error> {
        let mut number = 0;
        match drive_count_passing(&mut self.it, &mut self.f, &FilterPass, &mut number) {
            Ok(None) => Ok(number),
            Ok(Some(never)) => match never {},
            Err(e) => Err(e),
        }
    }

    #[inline(always)]
    fn try_fold<Value, Failed, Step>(&mut self, init: Value, f: Step) -> Result<Value, Failed>
    where
        Failed: From<Self::Error>,
        Step: FnMut(Value, Self::Item) -> Result<Value, Failed>,
    {
        crate::fallible_core::passing::try_fold_passing(
            &mut self.it,
            &mut self.f,
            &FilterPass,
            init,
            f,
        )
    }
}

impl<I: DoubleEndedFallibleIterator, F: FnMut(&I::Item) -> Result<bool, I::Error>>
    DoubleEndedFallibleIterator for Filter<I, F>
{
    /// Draws from the back until an item is kept, or a failure or `Ok(None)` comes. It calls the predicate on each item.
    fn next_back(&mut self) -> Result<Option<I::Item>, I::Error> {
        let turn = PassDrawTurn {
            adapter: &FilterPass,
        };
        answer_within(self.it.drive_back(&mut self.f, &turn))
    }

    #[inline(always)]
    fn drive_back<C, R, K: Turn<C, I::Item, R>>(
        &mut self,
        state: &mut C,
        turn: &K,
    ) -> Result<Option<R>, I::Error> {
        drive_back_passing(&mut self.it, &mut self.f, &FilterPass, state, turn)
    }

    #[inline(always)]
    fn try_rfold<Value, Failed, Step>(&mut self, init: Value, f: Step) -> Result<Value, Failed>
    where
        Failed: From<Self::Error>,
        Step: FnMut(Value, Self::Item) -> Result<Value, Failed>,
    {
        crate::fallible_core::passing::try_rfold_passing(
            &mut self.it,
            &mut self.f,
            &FilterPass,
            init,
            f,
        )
    }
}

// What becomes of an item by the predicate's result.
struct FilterPass;

impl<X, E, F: FnMut(&X) -> Result<bool, E>> Pass<F, X, E> for FilterPass {
    type Kept = X;

    type Answer = Result<bool, E>;

    #[inline(always)]
    fn pass(&self, state: &mut F, item: X) -> Outcome<X, E> {
        match state(&item) {
            Ok(true) => Outcome::Kept(item),
            Ok(false) => Outcome::LeftOut,
            Err(e) => Outcome::Failure(e),
        }
    }
}
