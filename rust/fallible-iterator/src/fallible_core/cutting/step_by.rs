// The adapter that keeps every k-th item.

use crate::fallible_contract::folds::Turn;
use crate::fallible_contract::hints::kept;
use crate::fallible_contract::passing::{Outcome, Pass};
use crate::fallible_core::cutting::by_number::next_past;
use crate::fallible_core::passing::drive_passing;
use crate::fallible_core::traits::FallibleIterator;

/// The source's first item, and then every k-th one. Failures and `Ok(None)` stay, and don't count.
#[derive(Clone, Debug)]
#[must_use = "an iterator draws nothing until it is asked"]
pub struct StepBy<I> {
    pub(crate) it: I,
    // how many items are left out between two, which is one less than the step
    pub(crate) between: usize,
    // how many items are left out next
    pub(crate) to_skip: usize,
}

impl<I: FallibleIterator> FallibleIterator for StepBy<I> {
    type Item = I::Item;

    type Error = I::Error;

    /// Draws the items that are left out next, and then once more. A failure or an `Ok(None)` among them is returned, and the rest of them is left out from the next call on.
    fn next(&mut self) -> Result<Option<I::Item>, I::Error> {
        match next_past(&mut self.it, &mut self.to_skip) {
            Ok(Some(x)) => {
                self.to_skip = self.between;
                Ok(Some(x))
            }
            Ok(None) => Ok(None),
            Err(e) => Err(e),
        }
    }

    fn size_hint(&self) -> (usize, Option<usize>) {
        kept(self.it.size_hint(), self.between, self.to_skip)
    }

    /// One fold of the source, which counts down the items that are left out.
    #[inline(always)]
    fn drive<C, R, K: Turn<C, I::Item, R>>(
        &mut self,
        state: &mut C,
        turn: &K,
    ) -> Result<Option<R>, I::Error> {
        let adapter = StepByPass {
            between: self.between,
        };
        drive_passing(&mut self.it, &mut self.to_skip, &adapter, state, turn)
    }

    crate::by_drive!(drive);
}

// An item that is left out lowers what is left, and the one after them is kept. The state is how many are left out next.
struct StepByPass {
    between: usize,
}

impl<X, E> Pass<usize, X, E> for StepByPass {
    type Kept = X;

    type Answer = usize;

    #[inline(always)]
    fn pass(&self, state: &mut usize, item: X) -> Outcome<X, E> {
        if 0 < *state {
            *state -= 1;
            Outcome::LeftOut
        } else {
            *state = self.between;
            Outcome::Kept(item)
        }
    }
}
