// The adapter that skips items up to the first one that a predicate rejects.

use crate::fallible_contract::folds::Turn;
use crate::fallible_contract::searching::Test;
use crate::fallible_core::traits::FallibleIterator;
use core::ops::ControlFlow;

/// The items from the first one on for which the predicate returns false. The predicate is called up to that item and never after it; an item on which it fails is lost, and its failure is yielded.
#[derive(Clone, Debug)]
#[must_use = "an iterator draws nothing until it is asked"]
pub struct SkipWhile<I, P> {
    pub(crate) it: I,
    // whether the predicate returned false, and the predicate
    pub(crate) skipping: (bool, P),
}

impl<I: FallibleIterator, P: FnMut(&I::Item) -> Result<bool, I::Error>> FallibleIterator
    for SkipWhile<I, P>
{
    type Item = I::Item;

    type Error = I::Error;

    /// Draws until an item is kept, or a failure or `Ok(None)` comes. It calls the predicate on each item until it first returned false. From then on it draws once.
    fn next(&mut self) -> Result<Option<I::Item>, I::Error> {
        if self.skipping.0 {
            self.it.next()
        } else {
            let skipping = &mut self.skipping;
            self.it.find(|x| SkipWhileTest.test(skipping, x))
        }
    }

    fn size_hint(&self) -> (usize, Option<usize>) {
        if self.skipping.0 {
            self.it.size_hint()
        } else {
            (0, self.it.size_hint().1)
        }
    }

    /// The items up to the first one that is kept, as `next` draws them, and after it the source's fold.
    #[inline(always)]
    fn drive<C, R, K: Turn<C, I::Item, R>>(
        &mut self,
        state: &mut C,
        turn: &K,
    ) -> Result<Option<R>, I::Error> {
        match self.next() {
            Ok(Some(x)) => match turn.turn(state, x) {
                ControlFlow::Continue(()) => self.it.drive(state, turn),
                ControlFlow::Break(stop) => Ok(Some(stop)),
            },
            Ok(None) => Ok(None),
            Err(e) => Err(e),
        }
    }

    crate::by_drive!(drive);
}

// The test of the search in `next`, whose state is the flag beside the predicate: it accepts an item once the predicate returned false, or if it does so for this one.
struct SkipWhileTest;

impl<X, E, P: FnMut(&X) -> Result<bool, E>> Test<(bool, P), X, E> for SkipWhileTest {
    #[inline(always)]
    fn test(&self, state: &mut (bool, P), item: &X) -> Result<bool, E> {
        if state.0 {
            return Ok(true);
        }
        match (state.1)(item) {
            Ok(true) => Ok(false),
            Ok(false) => {
                state.0 = true;
                Ok(true)
            }
            Err(e) => Err(e),
        }
    }
}
