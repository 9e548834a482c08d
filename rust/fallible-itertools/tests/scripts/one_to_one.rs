//! Adapters that answer each draw by one.

use crate::AllocError;
use crate::answer::{Answer, Failed, Seen};
use crate::case::{Case, Given, Run};
use crate::layers::{Layer, Visit};
use crate::operating::operate;
use crate::operation::Outcome;
use crate::rules::{
    POINTED_TO, by_calls, each, failures_mapped_by_calls, inspected_by_calls, mapped_by_calls,
    mapped_while_by_calls, numbered, pointed_to, unchanged,
};
use crate::script::Pointing;
use fallible_iterator::FallibleIterator;

/// A borrowed script itself.
pub struct Borrowed;

impl Case for Borrowed {
    fn name() -> &'static str {
        "borrowed"
    }

    fn perform(run: &Run<'_>) -> Result<Option<Outcome>, AllocError> {
        let mut script = run.script();
        operate(run, &mut script)
    }

    fn expected(given: &Given) -> Result<Vec<Seen>, AllocError> {
        unchanged(given.all.as_slice())
    }
}

/// `map` to ten times the item and how often the closure was called, which fails with 8 on each third call.
pub struct MappedByCalls;

impl Layer for MappedByCalls {
    fn name() -> &'static str {
        "map, by calls"
    }

    fn over<I, V: Visit>(run: &Run<'_>, it: I) -> Result<Option<Outcome>, AllocError>
    where
        I: FallibleIterator<Item = u32, Error = Failed>,
    {
        let mut calls: u32 = 0;
        let nest = it.map(|x: u32| {
            calls = calls.wrapping_add(1);
            if calls % 3 == 0 {
                Err(Failed(8))
            } else {
                Ok(x.wrapping_mul(10).wrapping_add(calls))
            }
        });
        V::visit(run, nest)
    }

    fn rule(source: &[Seen], _made: u32) -> Result<Vec<Seen>, AllocError> {
        mapped_by_calls(source)
    }
}

/// `inspect`, which fails with 8 more than the item on each third call.
pub struct InspectedByCalls;

impl Layer for InspectedByCalls {
    fn name() -> &'static str {
        "inspect, by calls"
    }

    fn over<I, V: Visit>(run: &Run<'_>, it: I) -> Result<Option<Outcome>, AllocError>
    where
        I: FallibleIterator<Item = u32, Error = Failed>,
    {
        let mut calls: u32 = 0;
        let nest = it.inspect(|x: &u32| {
            calls = calls.wrapping_add(1);
            if calls % 3 == 0 {
                Err(Failed((*x).wrapping_add(8)))
            } else {
                Ok(())
            }
        });
        V::visit(run, nest)
    }

    fn rule(source: &[Seen], _made: u32) -> Result<Vec<Seen>, AllocError> {
        inspected_by_calls(source)
    }
}

/// `map_err` to 100 more and how often the closure was called.
pub struct FailuresMapped;

impl Layer for FailuresMapped {
    fn name() -> &'static str {
        "map_err, by calls"
    }

    fn over<I, V: Visit>(run: &Run<'_>, it: I) -> Result<Option<Outcome>, AllocError>
    where
        I: FallibleIterator<Item = u32, Error = Failed>,
    {
        let mut calls: u32 = 0;
        let nest = it.map_err(|e: Failed| {
            calls = calls.wrapping_add(1);
            Failed(e.0.wrapping_add(100).wrapping_add(calls))
        });
        V::visit(run, nest)
    }

    fn rule(source: &[Seen], _made: u32) -> Result<Vec<Seen>, AllocError> {
        failures_mapped_by_calls(source)
    }
}

const TENS: [u32; 2] = [10, 20];

/// `cloned` of references to 10 and 20.
pub struct Clones;

impl Case for Clones {
    fn name() -> &'static str {
        "cloned"
    }

    fn perform(run: &Run<'_>) -> Result<Option<Outcome>, AllocError> {
        let mut pointing = Pointing::new(run.script(), &TENS);
        operate(run, (&mut pointing).cloned())
    }

    fn expected(given: &Given) -> Result<Vec<Seen>, AllocError> {
        each(given.all.as_slice(), |answer: Answer| match answer {
            Answer::Item(1) => Some(Answer::Item(10)),
            Answer::Item(_) => Some(Answer::Item(20)),
            other => Some(other),
        })
    }
}

/// `scan` to the item and its number, from 1, which ends at the second item and fails with 8 at the third.
pub struct Scanned;

impl Layer for Scanned {
    fn name() -> &'static str {
        "scan, by calls"
    }

    fn over<I, V: Visit>(run: &Run<'_>, it: I) -> Result<Option<Outcome>, AllocError>
    where
        I: FallibleIterator<Item = u32, Error = Failed>,
    {
        let nest = it.scan(0, |items: &mut u32, x: u32| {
            *items = (*items).wrapping_add(1);
            match *items {
                2 => Ok(None),
                3 => Err(Failed(8)),
                number => Ok(Some(x.wrapping_add(number))),
            }
        });
        V::visit(run, nest)
    }

    fn rule(source: &[Seen], _made: u32) -> Result<Vec<Seen>, AllocError> {
        let mut items: u32 = 0;
        each(source, |answer: Answer| {
            if let Answer::Item(x) = answer {
                items = items.wrapping_add(1);
                match items {
                    2 => Some(Answer::End),
                    3 => Some(Answer::Failure(8)),
                    number => Some(Answer::Item(x.wrapping_add(number))),
                }
            } else {
                Some(answer)
            }
        })
    }
}

/// `enumerate`.
pub struct Enumerated;

impl Case for Enumerated {
    fn name() -> &'static str {
        "enumerate"
    }

    fn perform(run: &Run<'_>) -> Result<Option<Outcome>, AllocError> {
        let mut script = run.script();
        operate(run, (&mut script).enumerate())
    }

    fn expected(given: &Given) -> Result<Vec<Seen>, AllocError> {
        numbered(given.all.as_slice())
    }
}

/// `map_while` to ten times the item and how often the closure was called, on odd calls; it fails on each third call, and ends on the others.
pub struct MappedWhile;

impl Layer for MappedWhile {
    fn name() -> &'static str {
        "map_while, by calls"
    }

    fn over<I, V: Visit>(run: &Run<'_>, it: I) -> Result<Option<Outcome>, AllocError>
    where
        I: FallibleIterator<Item = u32, Error = Failed>,
    {
        let mut calls: u32 = 0;
        let nest = it.map_while(|x: u32| {
            calls = calls.wrapping_add(1);
            match by_calls(calls, x) {
                Ok(true) => Ok(Some(x.wrapping_mul(10).wrapping_add(calls))),
                Ok(false) => Ok(None),
                Err(e) => Err(Failed(e)),
            }
        });
        V::visit(run, nest)
    }

    fn rule(source: &[Seen], _made: u32) -> Result<Vec<Seen>, AllocError> {
        mapped_while_by_calls(source)
    }
}

/// `cloned` of a reference for each item.
pub struct ClonesOfMapped;

impl Layer for ClonesOfMapped {
    fn name() -> &'static str {
        "cloned of map"
    }

    fn over<I, V: Visit>(run: &Run<'_>, it: I) -> Result<Option<Outcome>, AllocError>
    where
        I: FallibleIterator<Item = u32, Error = Failed>,
    {
        let numbers = &POINTED_TO;
        let nest = it.map(|x: u32| Ok(&numbers[(x % 8) as usize])).cloned();
        V::visit(run, nest)
    }

    fn rule(source: &[Seen], _made: u32) -> Result<Vec<Seen>, AllocError> {
        pointed_to(source)
    }
}
