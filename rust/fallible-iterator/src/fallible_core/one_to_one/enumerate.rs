// The adapter that numbers the items.

use crate::fallible_contract::folds::{NthTurn, Turn};
use crate::fallible_contract::passing::{Outcome, Pass, passed};
use crate::fallible_core::passing::drive_passing;
use crate::fallible_core::traits::FallibleIterator;

/// Each item with the number of items before it. Failures and `Ok(None)` pass, and don't count.
#[derive(Clone, Debug)]
#[must_use = "an iterator draws nothing until it is asked"]
pub struct Enumerate<I> {
    pub(crate) it: I,
    pub(crate) count: usize,
}

impl<I: FallibleIterator> FallibleIterator for Enumerate<I> {
    type Item = (usize, I::Item);

    type Error = I::Error;

    /// Draws once, and counts an item.
    fn next(&mut self) -> Result<Option<(usize, I::Item)>, I::Error> {
        passed(self.it.next(), &mut self.count, &EnumeratePass)
    }

    fn size_hint(&self) -> (usize, Option<usize>) {
        self.it.size_hint()
    }

    /// The count goes on for each item that the source yields, also for the one where the turn stops.
    #[inline(always)]
    fn drive<C, R, K: Turn<C, (usize, I::Item), R>>(
        &mut self,
        state: &mut C,
        turn: &K,
    ) -> Result<Option<R>, I::Error> {
        drive_passing(&mut self.it, &mut self.count, &EnumeratePass, state, turn)
    }

    fn count(self) -> Result<usize, Self::Error> {
        self.it.count()
    }

    fn nth(&mut self, n: usize) -> Result<Option<(usize, I::Item)>, I::Error> {
        let mut left = n;
        self.drive(&mut left, &NthTurn)
    }

    #[inline(always)]
    fn try_fold<Value, Failed, Step>(&mut self, init: Value, f: Step) -> Result<Value, Failed>
    where
        Failed: From<Self::Error>,
        Step: FnMut(Value, Self::Item) -> Result<Value, Failed>,
    {
        crate::fallible_core::passing::try_fold_passing(
            &mut self.it,
            &mut self.count,
            &EnumeratePass,
            init,
            f,
        )
    }
}

// An item with its number. Its state is the number of the next item.
struct EnumeratePass;

impl<X, E> Pass<usize, X, E> for EnumeratePass {
    type Kept = (usize, X);

    type Answer = usize;

    #[inline(always)]
    fn pass(&self, state: &mut usize, item: X) -> Outcome<(usize, X), E> {
        let number = *state;
        *state += 1;
        Outcome::Kept((number, item))
    }
}
