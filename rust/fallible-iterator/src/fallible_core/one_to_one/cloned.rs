// The adapter that clones what each item points to.

use crate::fallible_contract::folds::Turn;
use crate::fallible_contract::passing::{Outcome, Pass, passed};
use crate::fallible_core::passing::{drive_back_passing, drive_passing};
use crate::fallible_core::traits::FallibleIterator;
use crate::fallible_core::traits::double_ended::DoubleEndedFallibleIterator;

/// A clone of what each item points to.
#[derive(Clone, Debug)]
#[must_use = "an iterator draws nothing until it is asked"]
pub struct Cloned<I> {
    pub(crate) it: I,
}

impl<'a, T: Clone + 'a, I: FallibleIterator<Item = &'a T>> FallibleIterator for Cloned<I> {
    type Item = T;

    type Error = I::Error;

    /// Draws once, and returns a clone of what the item points to.
    fn next(&mut self) -> Result<Option<T>, I::Error> {
        passed(self.it.next(), &mut (), &ClonePass)
    }

    fn size_hint(&self) -> (usize, Option<usize>) {
        self.it.size_hint()
    }

    #[inline(always)]
    fn drive<C, R, K: Turn<C, T, R>>(
        &mut self,
        state: &mut C,
        turn: &K,
    ) -> Result<Option<R>, I::Error> {
        drive_passing(&mut self.it, &mut (), &ClonePass, state, turn)
    }

    #[inline(always)]
    fn try_fold<Value, Failed, Step>(&mut self, init: Value, f: Step) -> Result<Value, Failed>
    where
        Failed: From<Self::Error>,
        Step: FnMut(Value, Self::Item) -> Result<Value, Failed>,
    {
        crate::fallible_core::passing::try_fold_passing(&mut self.it, &mut (), &ClonePass, init, f)
    }
}

impl<'a, T: Clone + 'a, I: DoubleEndedFallibleIterator<Item = &'a T>> DoubleEndedFallibleIterator
    for Cloned<I>
{
    /// Draws once from the back, and returns a clone of what the item points to.
    fn next_back(&mut self) -> Result<Option<T>, I::Error> {
        passed(self.it.next_back(), &mut (), &ClonePass)
    }

    #[inline(always)]
    fn drive_back<C, R, K: Turn<C, T, R>>(
        &mut self,
        state: &mut C,
        turn: &K,
    ) -> Result<Option<R>, I::Error> {
        drive_back_passing(&mut self.it, &mut (), &ClonePass, state, turn)
    }

    #[inline(always)]
    fn try_rfold<Value, Failed, Step>(&mut self, init: Value, f: Step) -> Result<Value, Failed>
    where
        Failed: From<Self::Error>,
        Step: FnMut(Value, Self::Item) -> Result<Value, Failed>,
    {
        crate::fallible_core::passing::try_rfold_passing(&mut self.it, &mut (), &ClonePass, init, f)
    }
}

// A clone of what an item points to. It keeps no state.
struct ClonePass;

impl<'b, T: Clone + 'b, E> Pass<(), &'b T, E> for ClonePass {
    type Kept = T;

    type Answer = Result<T, E>;

    #[inline(always)]
    fn pass(&self, _state: &mut (), item: &'b T) -> Outcome<T, E> {
        Outcome::Kept(T::clone(item))
    }
}
