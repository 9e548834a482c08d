// The adapters that yield positions, alone or beside their items.

use crate::base::Turn;
use crate::base::{FirstTurn, Outcome, Pass, drive_passing, sum};
use crate::fallible_itertools_adapters::staging::{
    AnswerAndDue, Emitted, Stage, Stop, drive_stage, let_go, next_stage, one, stop_answer,
};
use core::mem::replace;
use fallible_iterator::{Enumerate, FallibleIterator};

/// The positions of the items for which the closure returns true. Each item counts, also one on which the closure fails; its failure is yielded.
#[derive(Clone, Debug)]
#[must_use = "an iterator draws nothing until it is asked"]
pub struct Positions<I, F> {
    pub(crate) it: Enumerate<I>,
    pub(crate) f: F,
}

impl<I, F> Positions<I, F> {
    /// Creates it. It draws nothing.
    #[inline(always)]
    pub(crate) fn new(it: Enumerate<I>, f: F) -> Positions<I, F> {
        Positions { it, f }
    }
}

// The fold by turns, by which `try_fold` goes.
impl<I: FallibleIterator, F: FnMut(I::Item) -> Result<bool, I::Error>> Positions<I, F> {
    #[inline(always)]
    fn by_turns<C, R, K: Turn<C, usize, R>>(
        &mut self,
        state: &mut C,
        turn: &K,
    ) -> Result<Option<R>, I::Error> {
        drive_passing(&mut self.it, &mut self.f, &PositionsPass, state, turn)
    }
}

impl<I: FallibleIterator, F: FnMut(I::Item) -> Result<bool, I::Error>> FallibleIterator
    for Positions<I, F>
{
    type Item = usize;

    type Error = I::Error;

    /// Draws until the closure returns true, or a failure or an `Ok(None)` comes. It calls the closure on each item.
    fn next(&mut self) -> Result<Option<usize>, I::Error> {
        self.by_turns(&mut (), &FirstTurn)
    }

    fn size_hint(&self) -> (usize, Option<usize>) {
        (0, self.it.size_hint().1)
    }

    crate::base::by_drive!(drive);
}

// What becomes of an item beside its position, by the closure's result.
struct PositionsPass;

impl<X, E, F: FnMut(X) -> Result<bool, E>> Pass<F, (usize, X), E> for PositionsPass {
    type Kept = usize;

    type Answer = Result<bool, E>;

    #[inline(always)]
    fn pass(&self, state: &mut F, item: (usize, X)) -> Outcome<usize, E> {
        match state(item.1) {
            Ok(true) => Outcome::Kept(item.0),
            Ok(false) => Outcome::LeftOut,
            Err(e) => Outcome::Failure(e),
        }
    }
}

/// Where an item stands among the items between two stops. A stop is `Ok(None)` or a failure.
#[derive(Clone, Copy, Debug, PartialEq, Eq, Hash)]
pub enum Position {
    /// the first of several items
    First,
    /// neither the first nor the last
    Middle,
    /// the last of several items
    Last,
    /// the only item
    Only,
}

/// The items, each with its [`Position`]. An item is buffered until another one comes, or a stop: `Ok(None)` or a failure, which the next call returns.
#[derive(Clone, Debug)]
#[must_use = "an iterator draws nothing until it is asked"]
pub struct WithPosition<I: FallibleIterator> {
    pub(crate) it: I,
    // the item that wasn't yielded yet, and whether an item since the last stop came before it; and the stop that is due: `Ok(None)`, or a failure
    pub(crate) stage: ((Option<(bool, I::Item)>, ()), Option<Stop<I::Error>>),
}

impl<I: FallibleIterator> WithPosition<I> {
    /// Creates it. It draws nothing.
    #[inline(always)]
    pub(crate) fn new(it: I) -> WithPosition<I> {
        WithPosition {
            it,
            stage: ((None, ()), None),
        }
    }
}

// The fold by turns, by which `try_fold` goes.
impl<I: FallibleIterator> WithPosition<I> {
    #[inline(always)]
    fn by_turns<C, R, K: Turn<C, (Position, I::Item), R>>(
        &mut self,
        state: &mut C,
        turn: &K,
    ) -> Result<Option<R>, I::Error> {
        drive_stage(&mut self.it, &mut self.stage, &PositionStage, state, turn)
    }
}

impl<I: FallibleIterator> FallibleIterator for WithPosition<I> {
    type Item = (Position, I::Item);

    type Error = I::Error;

    /// Returns the stop that is due, without a draw. Otherwise it draws once if an item is buffered, and otherwise twice, or up to a stop.
    fn next(&mut self) -> Result<Option<(Position, I::Item)>, I::Error> {
        match self.stage.1.take() {
            Some(stop) => stop_answer(stop),
            None => match &self.stage.0.0 {
                Some(_) => next_stage(&mut self.it, &mut self.stage, &PositionStage),
                None => match self.it.next() {
                    Ok(Some(first)) => {
                        self.stage.0.0 = Some((false, first));
                        next_stage(&mut self.it, &mut self.stage, &PositionStage)
                    }
                    Ok(None) => Ok(None),
                    Err(e) => Err(e),
                },
            },
        }
    }

    fn size_hint(&self) -> (usize, Option<usize>) {
        match self.stage.1 {
            Some(None) => (0, Some(0)),
            _ => {
                let held = if self.stage.0.0.is_some() { 1 } else { 0 };
                sum(self.it.size_hint(), (held, Some(held)))
            }
        }
    }

    crate::base::by_drive!(drive);
}

// An item is buffered until it is known what comes after it.
struct PositionStage;

impl<X, E> Stage<(Option<(bool, X)>, ()), X, E> for PositionStage {
    type Kept = (Position, X);

    type Due = Stop<E>;

    #[inline(always)]
    fn on_item(
        &self,
        p: &mut (Option<(bool, X)>, ()),
        item: X,
    ) -> Emitted<(Position, X), Stop<E>, E> {
        let is_later = p.0.is_some();
        match replace(&mut p.0, Some((is_later, item))) {
            Some((was_later, before)) => one(Ok(Some((first_or_middle(was_later), before)))),
            None => None,
        }
    }

    #[inline(always)]
    fn on_stop(
        &self,
        p: &mut (Option<(bool, X)>, ()),
        stop: Stop<E>,
    ) -> Emitted<(Position, X), Stop<E>, E> {
        let_go(placed_last(p.0.take()), stop)
    }

    #[inline(always)]
    fn answer_due(&self, due: Stop<E>) -> AnswerAndDue<(Position, X), Stop<E>, E> {
        (stop_answer(due), None)
    }
}

// The buffered item with its position before a stop.
#[inline(always)]
fn placed_last<X>(held: Option<(bool, X)>) -> Option<(Position, X)> {
    match held {
        Some((is_later, last)) => Some((only_or_last(is_later), last)),
        None => None,
    }
}

// The position of an item that another item comes after.
#[inline(always)]
fn first_or_middle(is_later: bool) -> Position {
    if is_later {
        Position::Middle
    } else {
        Position::First
    }
}

// The position of an item that a stop comes after.
#[inline(always)]
fn only_or_last(is_later: bool) -> Position {
    if is_later {
        Position::Last
    } else {
        Position::Only
    }
}
