//! Adapters that cut their source short, or leave items out by number.

use crate::AllocError;
use crate::answer::{Failed, Seen};
use crate::case::{Case, Given, Run};
use crate::layers::{Layer, Visit};
use crate::operating::operate;
use crate::operation::Outcome;
use crate::rules::{
    add_ends, by_calls, fused, skipped, stepped, taken, taken_while_by_calls, taken_while_failing,
};
use fallible_iterator::FallibleIterator;

/// `take(0)`.
pub struct TakenNone;

impl Case for TakenNone {
    fn name() -> &'static str {
        "take(0)"
    }

    fn perform(run: &Run<'_>) -> Result<Option<Outcome>, AllocError> {
        let mut script = run.script();
        operate(run, (&mut script).take(0))
    }

    fn expected(given: &Given) -> Result<Vec<Seen>, AllocError> {
        let mut made = Vec::new();
        add_ends(&mut made, 0)?;
        Ok(made)
    }
}

/// `take(2)`.
pub struct TakenTwo;

impl Layer for TakenTwo {
    fn name() -> &'static str {
        "take(2)"
    }

    fn over<I, V: Visit>(run: &Run<'_>, it: I) -> Result<Option<Outcome>, AllocError>
    where
        I: FallibleIterator<Item = u32, Error = Failed>,
    {
        V::visit(run, it.take(2))
    }

    fn rule(source: &[Seen], _made: u32) -> Result<Vec<Seen>, AllocError> {
        taken(source, 2)
    }
}

/// `take_while` by a closure that fails on its first call, is true on the second, and false on the third.
pub struct TakenWhileByCalls;

impl Layer for TakenWhileByCalls {
    fn name() -> &'static str {
        "take_while, by calls"
    }

    fn over<I, V: Visit>(run: &Run<'_>, it: I) -> Result<Option<Outcome>, AllocError>
    where
        I: FallibleIterator<Item = u32, Error = Failed>,
    {
        let mut calls: u32 = 0;
        let nest = it.take_while(|x: &u32| {
            let before = calls;
            calls = calls.wrapping_add(1);
            by_calls(before, *x).map_err(Failed)
        });
        V::visit(run, nest)
    }

    fn rule(source: &[Seen], _made: u32) -> Result<Vec<Seen>, AllocError> {
        taken_while_by_calls(source)
    }
}

/// `take_while` of 1, by a closure that fails with 8 on each third call.
pub struct TakenWhileFailing;

impl Case for TakenWhileFailing {
    fn name() -> &'static str {
        "take_while, failing on each third call"
    }

    fn perform(run: &Run<'_>) -> Result<Option<Outcome>, AllocError> {
        let mut script = run.script();
        let mut calls: u32 = 0;
        let nest = (&mut script).take_while(|x: &u32| {
            calls = calls.wrapping_add(1);
            if calls % 3 == 0 {
                Err(Failed(8))
            } else {
                Ok(*x == 1)
            }
        });
        operate(run, nest)
    }

    fn expected(given: &Given) -> Result<Vec<Seen>, AllocError> {
        taken_while_failing(given.all.as_slice())
    }
}

/// `fuse`.
pub struct Fused;

impl Layer for Fused {
    fn name() -> &'static str {
        "fuse"
    }

    fn over<I, V: Visit>(run: &Run<'_>, it: I) -> Result<Option<Outcome>, AllocError>
    where
        I: FallibleIterator<Item = u32, Error = Failed>,
    {
        V::visit(run, it.fuse())
    }

    fn rule(source: &[Seen], _made: u32) -> Result<Vec<Seen>, AllocError> {
        fused(source)
    }
}

/// `skip(1)`.
pub struct SkippedOne;

impl Layer for SkippedOne {
    fn name() -> &'static str {
        "skip(1)"
    }

    fn over<I, V: Visit>(run: &Run<'_>, it: I) -> Result<Option<Outcome>, AllocError>
    where
        I: FallibleIterator<Item = u32, Error = Failed>,
    {
        V::visit(run, it.skip(1))
    }

    fn rule(source: &[Seen], _made: u32) -> Result<Vec<Seen>, AllocError> {
        skipped(source, 1)
    }
}

/// `skip(2)`.
pub struct SkippedTwo;

impl Case for SkippedTwo {
    fn name() -> &'static str {
        "skip(2)"
    }

    fn perform(run: &Run<'_>) -> Result<Option<Outcome>, AllocError> {
        let mut script = run.script();
        operate(run, (&mut script).skip(2))
    }

    fn expected(given: &Given) -> Result<Vec<Seen>, AllocError> {
        skipped(given.all.as_slice(), 2)
    }
}

/// `step_by(2)`.
pub struct SteppedByTwo;

impl Layer for SteppedByTwo {
    fn name() -> &'static str {
        "step_by(2)"
    }

    fn over<I, V: Visit>(run: &Run<'_>, it: I) -> Result<Option<Outcome>, AllocError>
    where
        I: FallibleIterator<Item = u32, Error = Failed>,
    {
        V::visit(run, it.step_by(2))
    }

    fn rule(source: &[Seen], _made: u32) -> Result<Vec<Seen>, AllocError> {
        stepped(source, 2)
    }
}
