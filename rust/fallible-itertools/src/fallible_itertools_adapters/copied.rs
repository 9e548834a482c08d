//! The adapter that copies what each item points to.

use crate::base::Turn;
use crate::base::{Outcome, Pass, drive_back_passing, drive_passing, passed};
use fallible_iterator::{DoubleEndedFallibleIterator, FallibleIterator};

/// A copy of what each item points to. Failures and `Ok(None)` pass.
#[derive(Clone, Debug)]
#[must_use = "an iterator draws nothing until it is asked"]
pub struct Copied<I> {
    pub(crate) it: I,
}

impl<I> Copied<I> {
    /// Creates it. It draws nothing.
    #[inline(always)]
    pub(crate) fn new(it: I) -> Copied<I> {
        Copied { it }
    }
}

// The fold by turns, by which `try_fold` goes.
impl<'a, T: Copy + 'a, I: FallibleIterator<Item = &'a T>> Copied<I> {
    #[inline(always)]
    fn by_turns<C, R, K: Turn<C, T, R>>(
        &mut self,
        state: &mut C,
        turn: &K,
    ) -> Result<Option<R>, I::Error> {
        drive_passing(&mut self.it, &mut (), &CopyPass, state, turn)
    }
}

impl<'a, T: Copy + 'a, I: FallibleIterator<Item = &'a T>> FallibleIterator for Copied<I> {
    type Item = T;

    type Error = I::Error;

    /// Draws once, and returns a copy of what the item points to.
    fn next(&mut self) -> Result<Option<T>, I::Error> {
        passed(self.it.next(), &mut (), &CopyPass)
    }

    fn size_hint(&self) -> (usize, Option<usize>) {
        self.it.size_hint()
    }

    crate::base::by_drive!(drive);
}

// The fold by turns, by which `try_fold` goes.
impl<'a, T: Copy + 'a, I: DoubleEndedFallibleIterator<Item = &'a T>> Copied<I> {
    #[inline(always)]
    fn back_by_turns<C, R, K: Turn<C, T, R>>(
        &mut self,
        state: &mut C,
        turn: &K,
    ) -> Result<Option<R>, I::Error> {
        drive_back_passing(&mut self.it, &mut (), &CopyPass, state, turn)
    }
}

impl<'a, T: Copy + 'a, I: DoubleEndedFallibleIterator<Item = &'a T>> DoubleEndedFallibleIterator
    for Copied<I>
{
    /// Draws once from the back, and returns a copy of what the item points to.
    fn next_back(&mut self) -> Result<Option<T>, I::Error> {
        passed(self.it.next_back(), &mut (), &CopyPass)
    }

    crate::base::by_drive!(drive_back);
}

// A copy of what an item points to. It keeps no state.
struct CopyPass;

impl<'b, T: Copy + 'b, E> Pass<(), &'b T, E> for CopyPass {
    type Kept = T;

    type Answer = ();

    #[inline(always)]
    fn pass(&self, _state: &mut (), item: &'b T) -> Outcome<T, E> {
        Outcome::Kept(*item)
    }
}
