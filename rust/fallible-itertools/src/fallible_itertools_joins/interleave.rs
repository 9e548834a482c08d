//! The adapter that yields the items of two sources in turn.

use crate::base::Turn;
use crate::base::sum;
use crate::fallible_itertools_joins::sides::{DrawsBoth, drive_both};
use fallible_iterator::{FallibleIterator, Fuse};

/// What two sources yield in turn, each fused, and the rest of the one that yields more. A failure takes its side's turn, as an item does.
#[derive(Clone, Debug)]
#[must_use = "an iterator draws nothing until it is asked"]
pub struct Interleave<T, U> {
    pub(crate) left: Fuse<T>,
    pub(crate) right: Fuse<U>,
    // whether it's the right's turn
    pub(crate) right_next: bool,
}

impl<T, U> Interleave<T, U> {
    /// Creates it. It draws nothing.
    #[inline(always)]
    pub(crate) fn new(left: Fuse<T>, right: Fuse<U>) -> Interleave<T, U> {
        Interleave {
            left,
            right,
            right_next: false,
        }
    }
}

// The fold by turns, by which `try_fold` goes.
impl<T: FallibleIterator, U: FallibleIterator<Item = T::Item, Error = T::Error>> Interleave<T, U> {
    #[inline(always)]
    fn by_turns<C, R, K: Turn<C, T::Item, R>>(
        &mut self,
        state: &mut C,
        turn: &K,
    ) -> Result<Option<R>, T::Error> {
        drive_both(self, state, turn)
    }
}

impl<T: FallibleIterator, U: FallibleIterator<Item = T::Item, Error = T::Error>> FallibleIterator
    for Interleave<T, U>
{
    type Item = T::Item;

    type Error = T::Error;

    /// Draws the side whose turn it is once. If that returned `Ok(None)`, it draws the other once. A side that returned `Ok(None)` isn't drawn again. Each fold draws so too.
    fn next(&mut self) -> Result<Option<T::Item>, T::Error> {
        self.next_of_both().0
    }

    fn size_hint(&self) -> (usize, Option<usize>) {
        sum(self.left.size_hint(), self.right.size_hint())
    }

    crate::base::by_drive!(drive);
}

impl<T: FallibleIterator, U: FallibleIterator<Item = T::Item, Error = T::Error>> DrawsBoth
    for Interleave<T, U>
{
    type Item = T::Item;

    type Error = T::Error;

    #[inline(always)]
    fn next_of_both(&mut self) -> (Result<Option<T::Item>, T::Error>, bool) {
        if self.right_next {
            self.right_next = false;
            first_or_second(&mut self.right, &mut self.left)
        } else {
            self.right_next = true;
            first_or_second(&mut self.left, &mut self.right)
        }
    }
}

// What the first side yields, or at its end the second; and whether that end was met.
#[inline(always)]
fn first_or_second<T: FallibleIterator, U: FallibleIterator<Item = T::Item, Error = T::Error>>(
    first: &mut T,
    second: &mut U,
) -> (Result<Option<T::Item>, T::Error>, bool) {
    match first.next() {
        Ok(Some(x)) => (Ok(Some(x)), false),
        Ok(None) => (second.next(), true),
        Err(e) => (Err(e), false),
    }
}
