// The adapter that leaves out the items for which its closure returns `None`.

use crate::fallible_contract::folds::{Turn, answer_within};
use crate::fallible_contract::passing::{Outcome, Pass};
use crate::fallible_contract::searching::FindMapTurn;
use crate::fallible_core::passing::{drive_back_passing, drive_count_passing, drive_passing};
use crate::fallible_core::traits::FallibleIterator;
use crate::fallible_core::traits::double_ended::DoubleEndedFallibleIterator;

/// The values that the closure returns. An item for which it returns `None` is left out; an item on which it fails is lost, and its failure is yielded.
#[derive(Clone, Debug)]
#[must_use = "an iterator draws nothing until it is asked"]
pub struct FilterMap<I, F> {
    pub(crate) it: I,
    pub(crate) f: F,
}

impl<I: FallibleIterator, B, F: FnMut(I::Item) -> Result<Option<B>, I::Error>> FallibleIterator
    for FilterMap<I, F>
{
    type Item = B;

    type Error = I::Error;

    /// Draws until the closure returns a value, or a failure or `Ok(None)` comes. It calls the closure on each item.
    fn next(&mut self) -> Result<Option<B>, I::Error> {
        answer_within(self.it.drive(&mut self.f, &FindMapTurn))
    }

    fn size_hint(&self) -> (usize, Option<usize>) {
        (0, self.it.size_hint().1)
    }

    #[inline(always)]
    fn drive<C, R, K: Turn<C, B, R>>(
        &mut self,
        state: &mut C,
        turn: &K,
    ) -> Result<Option<R>, I::Error> {
        drive_passing(&mut self.it, &mut self.f, &FilterMapPass, state, turn)
    }

    fn count(mut self) -> Result<usize, I::Error> {
        let mut number = 0;
        match drive_count_passing(&mut self.it, &mut self.f, &FilterMapPass, &mut number) {
            Ok(None) => Ok(number),
            Ok(Some(never)) => match never {},
            Err(e) => Err(e),
        }
    }

    #[inline(always)]
    fn try_fold<Value, Failed, Step>(&mut self, init: Value, f: Step) -> Result<Value, Failed>
    where
        Failed: From<Self::Error>,
        Step: FnMut(Value, Self::Item) -> Result<Value, Failed>,
    {
        crate::fallible_core::passing::try_fold_passing(
            &mut self.it,
            &mut self.f,
            &FilterMapPass,
            init,
            f,
        )
    }
}

impl<I: DoubleEndedFallibleIterator, B, F: FnMut(I::Item) -> Result<Option<B>, I::Error>>
    DoubleEndedFallibleIterator for FilterMap<I, F>
{
    /// Draws from the back until the closure returns a value, or a failure or `Ok(None)` comes. It calls the closure on each item.
    fn next_back(&mut self) -> Result<Option<B>, I::Error> {
        answer_within(self.it.drive_back(&mut self.f, &FindMapTurn))
    }

    #[inline(always)]
    fn drive_back<C, R, K: Turn<C, B, R>>(
        &mut self,
        state: &mut C,
        turn: &K,
    ) -> Result<Option<R>, I::Error> {
        drive_back_passing(&mut self.it, &mut self.f, &FilterMapPass, state, turn)
    }

    #[inline(always)]
    fn try_rfold<Value, Failed, Step>(&mut self, init: Value, f: Step) -> Result<Value, Failed>
    where
        Failed: From<Self::Error>,
        Step: FnMut(Value, Self::Item) -> Result<Value, Failed>,
    {
        crate::fallible_core::passing::try_rfold_passing(
            &mut self.it,
            &mut self.f,
            &FilterMapPass,
            init,
            f,
        )
    }
}

// What becomes of an item by the closure's result.
struct FilterMapPass;

impl<X, B, E, F: FnMut(X) -> Result<Option<B>, E>> Pass<F, X, E> for FilterMapPass {
    type Kept = B;

    type Answer = Result<Option<B>, E>;

    #[inline(always)]
    fn pass(&self, state: &mut F, item: X) -> Outcome<B, E> {
        match state(item) {
            Ok(Some(y)) => Outcome::Kept(y),
            Ok(None) => Outcome::LeftOut,
            Err(e) => Outcome::Failure(e),
        }
    }
}
