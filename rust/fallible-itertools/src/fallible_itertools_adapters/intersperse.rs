// The adapters that put a separator between each two adjacent items.

use crate::base::Turn;
use crate::fallible_itertools_adapters::staging::{
    AnswerAndDue, Emitted, Stage, Stop, drive_stage, next_stage, one, one_then, stop_answer,
};
use fallible_iterator::FallibleIterator;

/// The items of the source with a clone of the separator between each two adjacent ones. An item that was drawn is buffered while the separator before it is yielded.
#[derive(Clone, Debug)]
#[must_use = "an iterator draws nothing until it is asked"]
pub struct Intersperse<I: FallibleIterator> {
    pub(crate) it: I,
    // whether an item came and the separator, and the buffered item
    pub(crate) stage: ((bool, I::Item), Option<I::Item>),
}

impl<I: FallibleIterator> Intersperse<I> {
    /// Creates it. It draws nothing.
    #[inline(always)]
    pub(crate) fn new(it: I, separator: I::Item) -> Intersperse<I> {
        Intersperse {
            it,
            stage: ((false, separator), None),
        }
    }
}

// The fold by turns, by which `try_fold` goes.
impl<I: FallibleIterator> Intersperse<I>
where
    I::Item: Clone,
{
    #[inline(always)]
    fn by_turns<C, R, K: Turn<C, I::Item, R>>(
        &mut self,
        state: &mut C,
        turn: &K,
    ) -> Result<Option<R>, I::Error> {
        drive_stage(&mut self.it, &mut self.stage, &SeparatorClone, state, turn)
    }
}

impl<I: FallibleIterator> FallibleIterator for Intersperse<I>
where
    I::Item: Clone,
{
    type Item = I::Item;

    type Error = I::Error;

    /// Yields the buffered item without a draw, and draws once if none is buffered.
    fn next(&mut self) -> Result<Option<I::Item>, I::Error> {
        next_stage(&mut self.it, &mut self.stage, &SeparatorClone)
    }

    fn size_hint(&self) -> (usize, Option<usize>) {
        hint_parting(self.it.size_hint(), &self.stage)
    }

    crate::base::by_drive!(drive);
}

// Each separator is a clone of the first.
struct SeparatorClone;

impl<X: Clone, E> Stage<(bool, X), X, E> for SeparatorClone {
    type Kept = X;

    type Due = X;

    #[inline(always)]
    fn on_item(&self, p: &mut (bool, X), item: X) -> Emitted<X, X, E> {
        if p.0 {
            separated(Ok(p.1.clone()), item)
        } else {
            p.0 = true;
            one(Ok(Some(item)))
        }
    }

    #[inline(always)]
    fn on_stop(&self, _p: &mut (bool, X), stop: Stop<E>) -> Emitted<X, X, E> {
        one(stop_answer(stop))
    }

    #[inline(always)]
    fn answer_due(&self, due: X) -> AnswerAndDue<X, X, E> {
        (Ok(Some(due)), None)
    }
}

/// The separator, or what making it failed with, and then the item.
#[inline(always)]
pub(crate) fn separated<X, E>(separator: Result<X, E>, item: X) -> Emitted<X, X, E> {
    match separator {
        Ok(separator) => one_then(Ok(Some(separator)), item),
        Err(e) => one_then(Err(e), item),
    }
}

/// How many items come of as many of the source as the hint says.
pub(crate) fn hint_parting<Z, X>(
    hint: (usize, Option<usize>),
    stage: &((bool, Z), Option<X>),
) -> (usize, Option<usize>) {
    let (low, high) = hint;
    (
        items_at_least(low, stage),
        high.and_then(|high| items_at_most(high, stage)),
    )
}

// How many items come of so many items of the source, at most `usize::MAX`.
fn items_at_least<Z, X>(low: usize, stage: &((bool, Z), Option<X>)) -> usize {
    let separators = if stage.0.0 {
        low
    } else {
        low.saturating_sub(1)
    };
    let items = low.saturating_add(separators);
    if stage.1.is_some() {
        items.saturating_add(1)
    } else {
        items
    }
}

// How many items come of so many items of the source, if that fits.
fn items_at_most<Z, X>(high: usize, stage: &((bool, Z), Option<X>)) -> Option<usize> {
    let separators = if stage.0.0 {
        high
    } else {
        high.saturating_sub(1)
    };
    let held = if stage.1.is_some() { 1 } else { 0 };
    high.checked_add(separators)?.checked_add(held)
}

/// The items of the source with what the closure returns between each two adjacent ones. An item that was drawn is buffered while the separator before it is yielded.
#[derive(Clone, Debug)]
#[must_use = "an iterator draws nothing until it is asked"]
pub struct IntersperseWith<I: FallibleIterator, F> {
    pub(crate) it: I,
    // whether an item came and the closure, and the buffered item
    pub(crate) stage: ((bool, F), Option<I::Item>),
}

impl<I: FallibleIterator, F> IntersperseWith<I, F> {
    /// Creates it. It draws nothing.
    #[inline(always)]
    pub(crate) fn new(it: I, f: F) -> IntersperseWith<I, F> {
        IntersperseWith {
            it,
            stage: ((false, f), None),
        }
    }
}

// The fold by turns, by which `try_fold` goes.
impl<I: FallibleIterator, F: FnMut() -> Result<I::Item, I::Error>> IntersperseWith<I, F> {
    #[inline(always)]
    fn by_turns<C, R, K: Turn<C, I::Item, R>>(
        &mut self,
        state: &mut C,
        turn: &K,
    ) -> Result<Option<R>, I::Error> {
        drive_stage(&mut self.it, &mut self.stage, &SeparatorCall, state, turn)
    }
}

impl<I: FallibleIterator, F: FnMut() -> Result<I::Item, I::Error>> FallibleIterator
    for IntersperseWith<I, F>
{
    type Item = I::Item;

    type Error = I::Error;

    /// Yields the buffered item without a draw, and draws once if none is buffered. If what it draws is an item after the first, it calls the closure once.
    fn next(&mut self) -> Result<Option<I::Item>, I::Error> {
        next_stage(&mut self.it, &mut self.stage, &SeparatorCall)
    }

    fn size_hint(&self) -> (usize, Option<usize>) {
        hint_parting(self.it.size_hint(), &self.stage)
    }

    crate::base::by_drive!(drive);
}

// Each separator is what one call of the closure returns.
struct SeparatorCall;

impl<X, E, F: FnMut() -> Result<X, E>> Stage<(bool, F), X, E> for SeparatorCall {
    type Kept = X;

    type Due = X;

    #[inline(always)]
    fn on_item(&self, p: &mut (bool, F), item: X) -> Emitted<X, X, E> {
        if p.0 {
            separated((p.1)(), item)
        } else {
            p.0 = true;
            one(Ok(Some(item)))
        }
    }

    #[inline(always)]
    fn on_stop(&self, _p: &mut (bool, F), stop: Stop<E>) -> Emitted<X, X, E> {
        one(stop_answer(stop))
    }

    #[inline(always)]
    fn answer_due(&self, due: X) -> AnswerAndDue<X, X, E> {
        (Ok(Some(due)), None)
    }
}
