// The adapter that maps each item, and returns `Ok(None)` where its closure returns `None`.

use crate::fallible_contract::folds::Turn;
use crate::fallible_contract::passing::{Outcome, Pass, passed};
use crate::fallible_core::passing::drive_passing;
use crate::fallible_core::traits::FallibleIterator;

/// What the closure returns for each item. Where that is `None`, the adapter returns `Ok(None)`, and the next call draws again. If the closure fails, its failure is yielded, and the item is lost.
#[derive(Clone, Debug)]
#[must_use = "an iterator draws nothing until it is asked"]
pub struct MapWhile<I, F> {
    pub(crate) it: I,
    pub(crate) f: F,
}

impl<I: FallibleIterator, B, F: FnMut(I::Item) -> Result<Option<B>, I::Error>> FallibleIterator
    for MapWhile<I, F>
{
    type Item = B;

    type Error = I::Error;

    /// Draws once, and calls the closure on an item.
    fn next(&mut self) -> Result<Option<B>, I::Error> {
        passed(self.it.next(), &mut self.f, &MapWhilePass)
    }

    fn size_hint(&self) -> (usize, Option<usize>) {
        (0, self.it.size_hint().1)
    }

    #[inline(always)]
    fn drive<C, R, K: Turn<C, B, R>>(
        &mut self,
        state: &mut C,
        turn: &K,
    ) -> Result<Option<R>, I::Error> {
        drive_passing(&mut self.it, &mut self.f, &MapWhilePass, state, turn)
    }

    #[inline(always)]
    fn try_fold<Value, Failed, Step>(&mut self, init: Value, f: Step) -> Result<Value, Failed>
    where
        Failed: From<Self::Error>,
        Step: FnMut(Value, Self::Item) -> Result<Value, Failed>,
    {
        crate::fallible_core::passing::try_fold_passing(
            &mut self.it,
            &mut self.f,
            &MapWhilePass,
            init,
            f,
        )
    }
}

// What the closure makes of an item.
struct MapWhilePass;

impl<X, B, E, F: FnMut(X) -> Result<Option<B>, E>> Pass<F, X, E> for MapWhilePass {
    type Kept = B;

    type Answer = Result<Option<B>, E>;

    #[inline(always)]
    fn pass(&self, state: &mut F, item: X) -> Outcome<B, E> {
        match state(item) {
            Ok(Some(y)) => Outcome::Kept(y),
            Ok(None) => Outcome::End,
            Err(e) => Outcome::Failure(e),
        }
    }
}
