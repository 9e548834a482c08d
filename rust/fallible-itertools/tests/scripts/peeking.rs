//! `peekable`, before and after a peek.

use crate::AllocError;
use crate::answer::{Answer, Failed, Seen};
use crate::case::{Case, Given, Run};
use crate::layers::{Layer, Visit};
use crate::operating::operate;
use crate::operation::Outcome;
use crate::rules::{accepts, fold_ahead, folds, unchanged, without_lost_first};
use fallible_iterator::{FallibleIterator, Peekable, fold_if};

/// `peekable`, with nothing held.
pub struct Unpeeked;

impl Case for Unpeeked {
    fn name() -> &'static str {
        "peekable"
    }

    fn perform(run: &Run<'_>) -> Result<Option<Outcome>, AllocError> {
        let mut script = run.script();
        operate(run, (&mut script).peekable())
    }

    fn expected(given: &Given) -> Result<Vec<Seen>, AllocError> {
        unchanged(given.all.as_slice())
    }
}

/// `peekable` after a peek, which holds an item or an end, and loses a failure.
pub struct Peeked;

impl Layer for Peeked {
    fn name() -> &'static str {
        "peekable, after a peek"
    }

    fn over<I, V: Visit>(run: &Run<'_>, it: I) -> Result<Option<Outcome>, AllocError>
    where
        I: FallibleIterator<Item = u32, Error = Failed>,
    {
        let mut nest = it.peekable();
        let _ = nest.peek_copied();
        V::visit(run, nest)
    }

    fn made() -> u32 {
        1
    }

    fn rule(source: &[Seen], _made: u32) -> Result<Vec<Seen>, AllocError> {
        without_lost_first(source, |answer: Answer| {
            matches!(answer, Answer::Failure(_))
        })
    }
}

/// `peekable` after a `next_if` that takes 1.
pub struct TakenIf;

impl Case for TakenIf {
    fn name() -> &'static str {
        "peekable, after next_if"
    }

    fn perform(run: &Run<'_>) -> Result<Option<Outcome>, AllocError> {
        let mut script = run.script();
        let mut nest = (&mut script).peekable();
        let _ = nest.next_if(|x: &u32| *x == 1);
        operate(run, nest)
    }

    fn expected(given: &Given) -> Result<Vec<Seen>, AllocError> {
        without_lost_first(given.all.as_slice(), |answer: Answer| {
            matches!(answer, Answer::Failure(_) | Answer::Item(1))
        })
    }
}

/// `peekable` after a `fold_if` that rejects an item, or stops at a failure or an end.
pub struct FoldedIf;

impl Case for FoldedIf {
    fn name() -> &'static str {
        "peekable, after fold_if"
    }

    fn perform(run: &Run<'_>) -> Result<Option<Outcome>, AllocError> {
        let mut script = run.script();
        let mut nest = (&mut script).peekable();
        let _ = fold_by_calls(&mut nest);
        operate(run, nest)
    }

    fn expected(given: &Given) -> Result<Vec<Seen>, AllocError> {
        let (_, _, taken) = fold_ahead(given.all.as_slice());
        let mut left = Vec::new();
        for seen in given.all.iter().skip(taken) {
            left.push(*seen);
        }
        Ok(left)
    }
}

/// The items that `accepts` takes, as one number, by `folds`.
pub fn fold_by_calls<I>(ahead: &mut Peekable<I>) -> Result<u32, Failed>
where
    I: FallibleIterator<Item = u32, Error = Failed>,
{
    let mut calls: u32 = 0;
    fold_if(
        ahead,
        0,
        |x: &u32| {
            calls = calls.wrapping_add(1);
            accepts(calls, *x).map_err(Failed)
        },
        |read: u32, x: u32| folds(read, x).map_err(Failed),
    )
}
