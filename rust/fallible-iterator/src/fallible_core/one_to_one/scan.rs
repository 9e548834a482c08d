// The adapter that calls a closure on a state and each item.

use crate::fallible_contract::folds::Turn;
use crate::fallible_contract::passing::{Outcome, Pass, passed};
use crate::fallible_core::passing::drive_passing;
use crate::fallible_core::traits::FallibleIterator;

/// What the closure returns for the state and each item. Where that is `None`, the adapter returns `Ok(None)`, and the next call draws again. If the closure fails, its failure is yielded, and the item is lost.
#[derive(Clone, Debug)]
#[must_use = "an iterator draws nothing until it is asked"]
pub struct Scan<I, St, F> {
    pub(crate) it: I,
    // the state, and the closure
    pub(crate) scanning: (St, F),
}

impl<I: FallibleIterator, St, B, F: FnMut(&mut St, I::Item) -> Result<Option<B>, I::Error>>
    FallibleIterator for Scan<I, St, F>
{
    type Item = B;

    type Error = I::Error;

    /// Draws once, and calls the closure on an item.
    fn next(&mut self) -> Result<Option<B>, I::Error> {
        passed(self.it.next(), &mut self.scanning, &ScanPass)
    }

    fn size_hint(&self) -> (usize, Option<usize>) {
        (0, self.it.size_hint().1)
    }

    #[inline(always)]
    fn drive<C, R, K: Turn<C, B, R>>(
        &mut self,
        state: &mut C,
        turn: &K,
    ) -> Result<Option<R>, I::Error> {
        drive_passing(&mut self.it, &mut self.scanning, &ScanPass, state, turn)
    }

    #[inline(always)]
    fn try_fold<Value, Failed, Step>(&mut self, init: Value, f: Step) -> Result<Value, Failed>
    where
        Failed: From<Self::Error>,
        Step: FnMut(Value, Self::Item) -> Result<Value, Failed>,
    {
        crate::fallible_core::passing::try_fold_passing(
            &mut self.it,
            &mut self.scanning,
            &ScanPass,
            init,
            f,
        )
    }
}

// What the closure makes of the state and an item.
struct ScanPass;

impl<X, St, B, E, F: FnMut(&mut St, X) -> Result<Option<B>, E>> Pass<(St, F), X, E> for ScanPass {
    type Kept = B;

    type Answer = Result<Option<B>, E>;

    #[inline(always)]
    fn pass(&self, state: &mut (St, F), item: X) -> Outcome<B, E> {
        match (state.1)(&mut state.0, item) {
            Ok(Some(y)) => Outcome::Kept(y),
            Ok(None) => Outcome::End,
            Err(e) => Outcome::Failure(e),
        }
    }
}
