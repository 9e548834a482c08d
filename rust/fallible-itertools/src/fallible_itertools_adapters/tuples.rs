// The adapters that yield items two by two: each item once, or each beside the next.

use crate::base::Turn;
use crate::base::{Outcome, Pass, drive_passing, kept};
use fallible_iterator::FallibleIterator;

/// The items two by two, as pairs: each item stands in one pair. The first of a pair is buffered until the second comes, over failures and `Ok(None)` too.
#[derive(Clone, Debug)]
#[must_use = "an iterator draws nothing until it is asked"]
pub struct Tuples<I: FallibleIterator> {
    pub(crate) it: I,
    // the first item of a pair
    pub(crate) held: Option<I::Item>,
}

impl<I: FallibleIterator> Tuples<I> {
    /// Creates it. It draws nothing.
    #[inline(always)]
    pub(crate) fn new(it: I) -> Tuples<I> {
        Tuples { it, held: None }
    }
}

// The fold by turns, by which `try_fold` goes.
impl<I: FallibleIterator> Tuples<I> {
    #[inline(always)]
    fn by_turns<C, R, K: Turn<C, (I::Item, I::Item), R>>(
        &mut self,
        state: &mut C,
        turn: &K,
    ) -> Result<Option<R>, I::Error> {
        drive_passing(&mut self.it, &mut self.held, &TuplePass, state, turn)
    }
}

impl<I: FallibleIterator> FallibleIterator for Tuples<I> {
    type Item = (I::Item, I::Item);

    type Error = I::Error;

    /// Draws once if an item is buffered, and otherwise until a second item, a failure or an `Ok(None)` comes.
    fn next(&mut self) -> Result<Option<(I::Item, I::Item)>, I::Error> {
        next_of_two(&mut self.it, &mut self.held, &TuplePass)
    }

    fn size_hint(&self) -> (usize, Option<usize>) {
        let first = if self.held.is_some() { 0 } else { 1 };
        kept(self.it.size_hint(), 1, first)
    }

    crate::base::by_drive!(drive);
}

// An item is held, or yielded beside the one that is.
struct TuplePass;

impl<X, E> Pass<Option<X>, X, E> for TuplePass {
    type Kept = (X, X);

    type Answer = Outcome<(X, X), E>;

    #[inline(always)]
    fn pass(&self, held: &mut Option<X>, item: X) -> Outcome<(X, X), E> {
        match held.take() {
            Some(first) => Outcome::Kept((first, item)),
            None => {
                *held = Some(item);
                Outcome::LeftOut
            }
        }
    }
}

/// Each two adjacent items, as pairs. The last item is buffered, and the pair has a clone of it.
#[derive(Clone, Debug)]
#[must_use = "an iterator draws nothing until it is asked"]
pub struct TupleWindows<I: FallibleIterator> {
    pub(crate) it: I,
    // the last item
    pub(crate) held: Option<I::Item>,
}

impl<I: FallibleIterator> TupleWindows<I> {
    /// Creates it. It draws nothing.
    #[inline(always)]
    pub(crate) fn new(it: I) -> TupleWindows<I> {
        TupleWindows { it, held: None }
    }
}

// The fold by turns, by which `try_fold` goes.
impl<I: FallibleIterator> TupleWindows<I>
where
    I::Item: Clone,
{
    #[inline(always)]
    fn by_turns<C, R, K: Turn<C, (I::Item, I::Item), R>>(
        &mut self,
        state: &mut C,
        turn: &K,
    ) -> Result<Option<R>, I::Error> {
        drive_passing(&mut self.it, &mut self.held, &WindowPass, state, turn)
    }
}

impl<I: FallibleIterator> FallibleIterator for TupleWindows<I>
where
    I::Item: Clone,
{
    type Item = (I::Item, I::Item);

    type Error = I::Error;

    /// Draws once if an item is buffered, and otherwise until a second item, a failure or an `Ok(None)` comes.
    fn next(&mut self) -> Result<Option<(I::Item, I::Item)>, I::Error> {
        next_of_two(&mut self.it, &mut self.held, &WindowPass)
    }

    fn size_hint(&self) -> (usize, Option<usize>) {
        let (low, high) = self.it.size_hint();
        if self.held.is_some() {
            (low, high)
        } else {
            (
                low.saturating_sub(1),
                high.map(|high| high.saturating_sub(1)),
            )
        }
    }

    crate::base::by_drive!(drive);
}

// An item after the one before it.
struct WindowPass;

impl<X: Clone, E> Pass<Option<X>, X, E> for WindowPass {
    type Kept = (X, X);

    type Answer = Outcome<(X, X), E>;

    #[inline(always)]
    fn pass(&self, held: &mut Option<X>, item: X) -> Outcome<(X, X), E> {
        match held.take() {
            Some(before) => pair(held, before, item),
            None => {
                *held = Some(item);
                Outcome::LeftOut
            }
        }
    }
}

// One answer of what leaves out at most one item before another.
fn next_of_two<I: FallibleIterator, P, G: Pass<P, I::Item, I::Error>>(
    it: &mut I,
    held: &mut P,
    adapter: &G,
) -> Result<Option<G::Kept>, I::Error> {
    match answer_of(it.next(), held, adapter) {
        Some(answer) => answer,
        None => match answer_of(it.next(), held, adapter) {
            Some(answer) => answer,
            None => unreachable!(),
        },
    }
}

// What comes of one answer of the source: nothing of an item that is left out.
#[inline(always)]
fn answer_of<P, X, E, G: Pass<P, X, E>>(
    drawn: Result<Option<X>, E>,
    held: &mut P,
    adapter: &G,
) -> Option<Result<Option<G::Kept>, E>> {
    match drawn {
        Ok(Some(x)) => match adapter.pass(held, x) {
            Outcome::Kept(y) => Some(Ok(Some(y))),
            Outcome::LeftOut => None,
            Outcome::Failure(e) => Some(Err(e)),
            Outcome::End => Some(Ok(None)),
        },
        Ok(None) => Some(Ok(None)),
        Err(e) => Some(Err(e)),
    }
}

// Both items, the later one as a clone. The later one is buffered then, also if its clone fails.
fn pair<X: Clone, E>(holds: &mut Option<X>, y: X, x: X) -> Outcome<(X, X), E> {
    let copy = x.clone();
    *holds = Some(x);
    Outcome::Kept((y, copy))
}
