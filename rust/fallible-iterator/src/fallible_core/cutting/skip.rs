// The adapter that skips the first items.

use crate::fallible_contract::folds::{NthTurn, Turn};
use crate::fallible_contract::hints::less;
use crate::fallible_core::cutting::by_number::next_past;
use crate::fallible_core::traits::FallibleIterator;
use core::ops::ControlFlow;

/// What the source yields without its first n items. Failures and `Ok(None)` stay, and don't count.
#[derive(Clone, Debug)]
#[must_use = "an iterator draws nothing until it is asked"]
pub struct Skip<I> {
    pub(crate) it: I,
    // how many items are still to be skipped
    pub(crate) to_skip: usize,
}

impl<I: FallibleIterator> FallibleIterator for Skip<I> {
    type Item = I::Item;

    type Error = I::Error;

    /// Draws the items that are still to be skipped, and then once more. A failure or an `Ok(None)` among them is returned, and the rest of them is skipped from the next call on.
    fn next(&mut self) -> Result<Option<I::Item>, I::Error> {
        next_past(&mut self.it, &mut self.to_skip)
    }

    fn size_hint(&self) -> (usize, Option<usize>) {
        less(self.it.size_hint(), self.to_skip)
    }

    /// One fold of the source up to the first item that stays, and after that item another one of the rest.
    #[inline(always)]
    fn drive<C, R, K: Turn<C, I::Item, R>>(
        &mut self,
        state: &mut C,
        turn: &K,
    ) -> Result<Option<R>, I::Error> {
        match self.it.drive(&mut self.to_skip, &NthTurn) {
            Ok(Some(x)) => match turn.turn(state, x) {
                ControlFlow::Continue(()) => self.it.drive(state, turn),
                ControlFlow::Break(stop) => Ok(Some(stop)),
            },
            Ok(None) => Ok(None),
            Err(e) => Err(e),
        }
    }

    crate::by_drive!(drive);
}
