//! The adapter that numbers what its source yields, and tells each failure's number.

use crate::base::Turn;
use crate::base::{Fail, Outcome, Pass, drive_passing, failed, passed};
use fallible_iterator::FallibleIterator;

/// The source with each failure replaced by what the closure returns for it and its index: how many items and failures came before it, or `usize::MAX` if they are more. Items and `Ok(None)` pass.
#[derive(Clone, Debug)]
#[must_use = "an iterator draws nothing until it is asked"]
pub struct MapErrWithIndex<I, F> {
    pub(crate) it: I,
    // the index of what comes next
    pub(crate) index: usize,
    pub(crate) f: F,
}

impl<I, F> MapErrWithIndex<I, F> {
    /// Creates it. It draws nothing.
    ///
    /// <details><summary>Contract</summary>
    ///
    /// As it is proved, in [these words](crate::words):
    ///
    /// ```text
    /// ensures { with_index_parts result ≡ ((it, 0), f) }
    /// ```
    /// </details>
    #[inline(always)]
    pub fn new(it: I, f: F) -> MapErrWithIndex<I, F> {
        MapErrWithIndex { it, index: 0, f }
    }
}

// The fold by turns, by which `try_fold` goes.
impl<I: FallibleIterator, B, F: FnMut(usize, I::Error) -> B> MapErrWithIndex<I, F> {
    #[inline(always)]
    fn by_turns<C, R, K: Turn<C, I::Item, R>>(
        &mut self,
        state: &mut C,
        turn: &K,
    ) -> Result<Option<R>, B> {
        let met = drive_passing(&mut self.it, &mut self.index, &CountPass, state, turn);
        let beside = failed(met, &mut self.index, &PairFail);
        failed(beside, &mut self.f, &IndexFail)
    }
}

impl<I: FallibleIterator, B, F: FnMut(usize, I::Error) -> B> FallibleIterator
    for MapErrWithIndex<I, F>
{
    type Item = I::Item;

    type Error = B;

    /// Draws once, counts an item or a failure, and calls the closure if a failure came.
    fn next(&mut self) -> Result<Option<I::Item>, B> {
        let drawn = passed(self.it.next(), &mut self.index, &CountPass);
        let beside = failed(drawn, &mut self.index, &PairFail);
        failed(beside, &mut self.f, &IndexFail)
    }

    fn size_hint(&self) -> (usize, Option<usize>) {
        self.it.size_hint()
    }

    crate::base::by_drive!(drive);
}

// An item as it is, counted. Its state is the index of what comes next.
struct CountPass;

impl<X, E> Pass<usize, X, E> for CountPass {
    type Kept = X;

    type Answer = ();

    #[inline(always)]
    fn pass(&self, state: &mut usize, item: X) -> Outcome<X, E> {
        *state = (*state).saturating_add(1);
        Outcome::Kept(item)
    }
}

// A failure beside its index, counted.
struct PairFail;

impl<D> Fail<usize, D> for PairFail {
    type Failure = (usize, D);

    #[inline(always)]
    fn fail(&self, state: &mut usize, failure: D) -> (usize, D) {
        let index = *state;
        *state = index.saturating_add(1);
        (index, failure)
    }
}

// What the closure returns for a failure beside its index.
struct IndexFail;

impl<D, E, F: FnMut(usize, D) -> E> Fail<F, (usize, D)> for IndexFail {
    type Failure = E;

    #[inline(always)]
    fn fail(&self, state: &mut F, failure: (usize, D)) -> E {
        state(failure.0, failure.1)
    }
}
