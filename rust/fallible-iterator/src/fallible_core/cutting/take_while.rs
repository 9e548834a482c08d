// The adapter that ends at the first item that a predicate rejects.

use crate::fallible_contract::folds::Turn;
use crate::fallible_contract::passing::{Outcome, Pass, passed};
use crate::fallible_core::passing::drive_passing;
use crate::fallible_core::traits::FallibleIterator;

/// What the source yields up to the first item that the predicate rejects. That one is lost, and from there on each call returns `Ok(None)`. An item on which the predicate fails is lost, and its failure is yielded; neither it nor an `Ok(None)` of the source exhausts anything.
#[derive(Clone, Debug)]
#[must_use = "an iterator draws nothing until it is asked"]
pub struct TakeWhile<I, P> {
    pub(crate) it: I,
    // whether an item was rejected, and the predicate
    pub(crate) taking: (bool, P),
}

impl<I: FallibleIterator, P: FnMut(&I::Item) -> Result<bool, I::Error>> FallibleIterator
    for TakeWhile<I, P>
{
    type Item = I::Item;

    type Error = I::Error;

    /// Draws once, and calls the predicate on an item; draws nothing once an item was rejected.
    fn next(&mut self) -> Result<Option<I::Item>, I::Error> {
        if self.taking.0 {
            return Ok(None);
        }
        passed(self.it.next(), &mut self.taking, &TakeWhilePass)
    }

    fn size_hint(&self) -> (usize, Option<usize>) {
        if self.taking.0 {
            (0, Some(0))
        } else {
            (0, self.it.size_hint().1)
        }
    }

    #[inline(always)]
    fn drive<C, R, K: Turn<C, I::Item, R>>(
        &mut self,
        state: &mut C,
        turn: &K,
    ) -> Result<Option<R>, I::Error> {
        if self.taking.0 {
            return Ok(None);
        }
        drive_passing(&mut self.it, &mut self.taking, &TakeWhilePass, state, turn)
    }

    crate::by_drive!(drive);
}

// An item that the predicate accepts; at one that it rejects the call returns `Ok(None)`. The flag beside the predicate says whether it rejected one.
struct TakeWhilePass;

impl<X, E, P: FnMut(&X) -> Result<bool, E>> Pass<(bool, P), X, E> for TakeWhilePass {
    type Kept = X;

    type Answer = Result<bool, E>;

    #[inline(always)]
    fn pass(&self, state: &mut (bool, P), item: X) -> Outcome<X, E> {
        match (state.1)(&item) {
            Ok(true) => Outcome::Kept(item),
            Ok(false) => {
                state.0 = true;
                Outcome::End
            }
            Err(e) => Outcome::Failure(e),
        }
    }
}
