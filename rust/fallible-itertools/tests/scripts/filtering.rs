//! Adapters that leave items out by a closure.

use crate::AllocError;
use crate::answer::{Failed, Seen};
use crate::case::{Case, Given, Run};
use crate::layers::{Layer, Visit};
use crate::operating::operate;
use crate::operation::Outcome;
use crate::rules::{
    by_calls, filter_mapped_by_calls, filtered_by_calls, places_by_calls, skipped_while_by_calls,
    skipped_while_failing,
};
use fallible_iterator::FallibleIterator;
use fallible_itertools::FallibleItertools;

/// `filter` by a closure that is true on odd calls and fails on each third call.
pub struct FilteredByCalls;

impl Layer for FilteredByCalls {
    fn name() -> &'static str {
        "filter, by calls"
    }

    fn over<I, V: Visit>(run: &Run<'_>, it: I) -> Result<Option<Outcome>, AllocError>
    where
        I: FallibleIterator<Item = u32, Error = Failed>,
    {
        let mut calls: u32 = 0;
        let nest = it.filter(|x: &u32| {
            calls = calls.wrapping_add(1);
            by_calls(calls, *x).map_err(Failed)
        });
        V::visit(run, nest)
    }

    fn rule(source: &[Seen], _made: u32) -> Result<Vec<Seen>, AllocError> {
        filtered_by_calls(source)
    }
}

/// `filter_map` to ten times the item and how often the closure was called, on odd calls; it fails on each third call.
pub struct FilterMappedByCalls;

impl Layer for FilterMappedByCalls {
    fn name() -> &'static str {
        "filter_map, by calls"
    }

    fn over<I, V: Visit>(run: &Run<'_>, it: I) -> Result<Option<Outcome>, AllocError>
    where
        I: FallibleIterator<Item = u32, Error = Failed>,
    {
        let mut calls: u32 = 0;
        let nest = it.filter_map(|x: u32| {
            calls = calls.wrapping_add(1);
            match by_calls(calls, x) {
                Ok(true) => Ok(Some(x.wrapping_mul(10).wrapping_add(calls))),
                Ok(false) => Ok(None),
                Err(e) => Err(Failed(e)),
            }
        });
        V::visit(run, nest)
    }

    fn rule(source: &[Seen], _made: u32) -> Result<Vec<Seen>, AllocError> {
        filter_mapped_by_calls(source)
    }
}

/// `positions` by a closure that is true on odd calls and fails on each third call.
pub struct PlacesByCalls;

impl Case for PlacesByCalls {
    fn name() -> &'static str {
        "positions, by calls"
    }

    fn perform(run: &Run<'_>) -> Result<Option<Outcome>, AllocError> {
        let mut script = run.script();
        let mut calls: u32 = 0;
        let nest = (&mut script).positions(|x: u32| {
            calls = calls.wrapping_add(1);
            by_calls(calls, x).map_err(Failed)
        });
        operate(run, nest)
    }

    fn expected(given: &Given) -> Result<Vec<Seen>, AllocError> {
        places_by_calls(given.all.as_slice())
    }
}

/// `skip_while` by a closure that fails on its first call, is true on the second, and false on the third.
pub struct SkippedWhileByCalls;

impl Layer for SkippedWhileByCalls {
    fn name() -> &'static str {
        "skip_while, by calls"
    }

    fn over<I, V: Visit>(run: &Run<'_>, it: I) -> Result<Option<Outcome>, AllocError>
    where
        I: FallibleIterator<Item = u32, Error = Failed>,
    {
        let mut calls: u32 = 0;
        let nest = it.skip_while(|x: &u32| {
            let before = calls;
            calls = calls.wrapping_add(1);
            by_calls(before, *x).map_err(Failed)
        });
        V::visit(run, nest)
    }

    fn rule(source: &[Seen], _made: u32) -> Result<Vec<Seen>, AllocError> {
        skipped_while_by_calls(source)
    }
}

/// `skip_while` of 1, by a closure that fails with 8 on each third call.
pub struct SkippedWhileFailing;

impl Case for SkippedWhileFailing {
    fn name() -> &'static str {
        "skip_while, failing on each third call"
    }

    fn perform(run: &Run<'_>) -> Result<Option<Outcome>, AllocError> {
        let mut script = run.script();
        let mut calls: u32 = 0;
        let nest = (&mut script).skip_while(|x: &u32| {
            calls = calls.wrapping_add(1);
            if calls % 3 == 0 {
                Err(Failed(8))
            } else {
                Ok(*x == 1)
            }
        });
        operate(run, nest)
    }

    fn expected(given: &Given) -> Result<Vec<Seen>, AllocError> {
        skipped_while_failing(given.all.as_slice())
    }
}
