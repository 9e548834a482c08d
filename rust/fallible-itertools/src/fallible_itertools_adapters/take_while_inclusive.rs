//! The adapter that ends after the first item that a predicate rejects.

use crate::base::Turn;
use crate::fallible_itertools_adapters::staging::{
    AnswerAndDue, Emitted, Stage, Stop, drive_stage, next_stage, one, one_then, stop_answer,
};
use fallible_iterator::FallibleIterator;

/// What the source returns up to the first item that the predicate rejects, and that one too. Then each call returns `Ok(None)`. An item on which the predicate fails is lost, and its failure is yielded; neither it nor an `Ok(None)` of the source exhausts anything.
#[derive(Clone, Debug)]
#[must_use = "an iterator draws nothing until it is asked"]
pub struct TakeWhileInclusive<I, P> {
    pub(crate) it: I,
    // the predicate, and once an item was rejected, ends without draws
    pub(crate) stage: (((), P), Option<()>),
}

impl<I, P> TakeWhileInclusive<I, P> {
    /// Creates it. It draws nothing.
    #[inline(always)]
    pub(crate) fn new(it: I, predicate: P) -> TakeWhileInclusive<I, P> {
        TakeWhileInclusive {
            it,
            stage: (((), predicate), None),
        }
    }
}

// The fold by turns, by which `try_fold` goes.
impl<I: FallibleIterator, P: FnMut(&I::Item) -> Result<bool, I::Error>> TakeWhileInclusive<I, P> {
    #[inline(always)]
    fn by_turns<C, R, K: Turn<C, I::Item, R>>(
        &mut self,
        state: &mut C,
        turn: &K,
    ) -> Result<Option<R>, I::Error> {
        drive_stage(&mut self.it, &mut self.stage, &InclusiveStage, state, turn)
    }
}

impl<I: FallibleIterator, P: FnMut(&I::Item) -> Result<bool, I::Error>> FallibleIterator
    for TakeWhileInclusive<I, P>
{
    type Item = I::Item;

    type Error = I::Error;

    /// Draws once, and calls the predicate on an item; draws nothing once an item was rejected.
    fn next(&mut self) -> Result<Option<I::Item>, I::Error> {
        next_stage(&mut self.it, &mut self.stage, &InclusiveStage)
    }

    fn size_hint(&self) -> (usize, Option<usize>) {
        if self.stage.1.is_some() {
            (0, Some(0))
        } else {
            let (low, high) = self.it.size_hint();
            (low.min(1), high)
        }
    }

    crate::base::by_drive!(drive);
}

// Nothing is drawn after an item that the predicate rejects.
struct InclusiveStage;

impl<X, E, P: FnMut(&X) -> Result<bool, E>> Stage<((), P), X, E> for InclusiveStage {
    type Kept = X;

    type Due = ();

    #[inline(always)]
    fn on_item(&self, p: &mut ((), P), item: X) -> Emitted<X, (), E> {
        match (p.1)(&item) {
            Ok(true) => one(Ok(Some(item))),
            Ok(false) => one_then(Ok(Some(item)), ()),
            Err(e) => one(Err(e)),
        }
    }

    #[inline(always)]
    fn on_stop(&self, _p: &mut ((), P), stop: Stop<E>) -> Emitted<X, (), E> {
        one(stop_answer(stop))
    }

    #[inline(always)]
    fn answer_due(&self, due: ()) -> AnswerAndDue<X, (), E> {
        (Ok(None), Some(due))
    }
}
