//! Adapters that act on failures.

use crate::AllocError;
use crate::answer::{Failed, Seen};
use crate::case::{Case, Given, Run};
use crate::itertools_rules::{
    beside_failures, failures_indexed, failures_raised, recovered_by_calls, stopped_after,
};
use crate::layers::{Layer, Visit};
use crate::operating::operate;
use crate::operation::Outcome;
use crate::rules::by_calls;
use fallible_iterator::FallibleIterator;
use fallible_itertools::FallibleItertools;
use std::cell::Cell;

/// `map` to ten times the item and how many failures `inspect_err` had shown by then.
pub struct ShownByCalls;

impl Layer for ShownByCalls {
    fn name() -> &'static str {
        "map of inspect_err, by calls"
    }

    fn over<I, V: Visit>(run: &Run<'_>, it: I) -> Result<Option<Outcome>, AllocError>
    where
        I: FallibleIterator<Item = u32, Error = Failed>,
    {
        let shown = Cell::new(0u32);
        let nest = it
            .inspect_err(|_: &Failed| shown.set(shown.get().wrapping_add(1)))
            .map(|x: u32| Ok(x.wrapping_mul(10).wrapping_add(shown.get())));
        V::visit(run, nest)
    }

    fn rule(source: &[Seen], _made: u32) -> Result<Vec<Seen>, AllocError> {
        beside_failures(source)
    }
}

/// `or_else` to ten times the failure and how often the closure was called, on odd calls, and to nothing on the others; it fails on each third call.
pub struct RecoveredByCalls;

impl Case for RecoveredByCalls {
    fn name() -> &'static str {
        "or_else, by calls"
    }

    fn perform(run: &Run<'_>) -> Result<Option<Outcome>, AllocError> {
        let mut script = run.script();
        let mut calls: u32 = 0;
        let nest = (&mut script).or_else(|e: Failed| {
            calls = calls.wrapping_add(1);
            match by_calls(calls, e.0) {
                Ok(true) => Ok(Some(e.0.wrapping_mul(10).wrapping_add(calls))),
                Ok(false) => Ok(None),
                Err(d) => Err(Failed(d)),
            }
        });
        operate(run, nest)
    }

    fn expected(given: &Given) -> Result<Vec<Seen>, AllocError> {
        recovered_by_calls(given.all.as_slice())
    }
}

// A failure, as another type has it.
struct Raised(u32);

impl From<Failed> for Raised {
    fn from(e: Failed) -> Raised {
        Raised(e.0.wrapping_add(50))
    }
}

/// `map_err` of `err_into` to a failure that is 50 more.
pub struct FailuresRaised;

impl Layer for FailuresRaised {
    fn name() -> &'static str {
        "map_err of err_into"
    }

    fn over<I, V: Visit>(run: &Run<'_>, it: I) -> Result<Option<Outcome>, AllocError>
    where
        I: FallibleIterator<Item = u32, Error = Failed>,
    {
        V::visit(
            run,
            it.err_into::<Raised>().map_err(|e: Raised| Failed(e.0)),
        )
    }

    fn rule(source: &[Seen], _made: u32) -> Result<Vec<Seen>, AllocError> {
        failures_raised(source)
    }
}

/// `map_err_with_index` to ten times the failure and its index.
pub struct FailuresIndexed;

impl Layer for FailuresIndexed {
    fn name() -> &'static str {
        "map_err_with_index"
    }

    fn over<I, V: Visit>(run: &Run<'_>, it: I) -> Result<Option<Outcome>, AllocError>
    where
        I: FallibleIterator<Item = u32, Error = Failed>,
    {
        V::visit(
            run,
            it.map_err_with_index(|index: usize, e: Failed| {
                Failed(e.0.wrapping_mul(10).wrapping_add(index as u32))
            }),
        )
    }

    fn rule(source: &[Seen], _made: u32) -> Result<Vec<Seen>, AllocError> {
        failures_indexed(source)
    }
}

/// `fuse_at_failure`.
pub struct FusedAtFailure;

impl Layer for FusedAtFailure {
    fn name() -> &'static str {
        "fuse_at_failure"
    }

    fn over<I, V: Visit>(run: &Run<'_>, it: I) -> Result<Option<Outcome>, AllocError>
    where
        I: FallibleIterator<Item = u32, Error = Failed>,
    {
        V::visit(run, it.fuse_at_failure())
    }

    fn rule(source: &[Seen], _made: u32) -> Result<Vec<Seen>, AllocError> {
        stopped_after(source, 1)
    }
}

/// `stop_after(2)`.
pub struct StoppedAfterTwo;

impl Layer for StoppedAfterTwo {
    fn name() -> &'static str {
        "stop_after(2)"
    }

    fn over<I, V: Visit>(run: &Run<'_>, it: I) -> Result<Option<Outcome>, AllocError>
    where
        I: FallibleIterator<Item = u32, Error = Failed>,
    {
        V::visit(run, it.stop_after(2))
    }

    fn rule(source: &[Seen], _made: u32) -> Result<Vec<Seen>, AllocError> {
        stopped_after(source, 2)
    }
}
