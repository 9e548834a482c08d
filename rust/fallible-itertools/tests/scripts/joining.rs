//! Adapters that join sources, and a run that begins anew.

use crate::AllocError;
use crate::answer::{Answer, Failed, Seen};
use crate::case::{Case, Given, Run};
use crate::layers::{Layer, Visit};
use crate::lists::whole;
use crate::operating::operate;
use crate::operation::Outcome;
use crate::rules::{chained, chained_after, cycled, each, joined, taken, zipped};
use fallible_iterator::FallibleIterator;

/// What stands beside the script: an item, a failure, an end, and an item.
pub const BESIDE: [Answer; 4] = [
    Answer::Item(5),
    Answer::Failure(6),
    Answer::End,
    Answer::Item(7),
];

/// The source chained with a script.
pub struct ChainedInFront;

impl Layer for ChainedInFront {
    fn name() -> &'static str {
        "chain, in front"
    }

    fn over<I, V: Visit>(run: &Run<'_>, it: I) -> Result<Option<Outcome>, AllocError>
    where
        I: FallibleIterator<Item = u32, Error = Failed>,
    {
        let mut beside = run.other(BESIDE);
        V::visit(run, it.chain(&mut beside))
    }

    fn rule(source: &[Seen], _made: u32) -> Result<Vec<Seen>, AllocError> {
        let beside = whole(BESIDE)?;
        chained(source, beside.as_slice())
    }
}

/// A script chained with the source.
pub struct ChainedBehind;

impl Layer for ChainedBehind {
    fn name() -> &'static str {
        "chain, behind"
    }

    fn over<I, V: Visit>(run: &Run<'_>, it: I) -> Result<Option<Outcome>, AllocError>
    where
        I: FallibleIterator<Item = u32, Error = Failed>,
    {
        let mut beside = run.other(BESIDE);
        V::visit(run, (&mut beside).chain(it))
    }

    fn rule(source: &[Seen], made: u32) -> Result<Vec<Seen>, AllocError> {
        let beside = whole(BESIDE)?;
        chained_after(beside.as_slice(), source, made)
    }
}

/// The script zipped with another.
pub struct ZippedLeft;

impl Case for ZippedLeft {
    fn name() -> &'static str {
        "zip, left"
    }

    fn perform(run: &Run<'_>) -> Result<Option<Outcome>, AllocError> {
        let mut script = run.script();
        let mut beside = run.other(BESIDE);
        operate(run, (&mut script).zip(&mut beside))
    }

    fn expected(given: &Given) -> Result<Vec<Seen>, AllocError> {
        let beside = whole(BESIDE)?;
        zipped(given.all.as_slice(), beside.as_slice())
    }
}

/// Another script zipped with the script.
pub struct ZippedRight;

impl Case for ZippedRight {
    fn name() -> &'static str {
        "zip, right"
    }

    fn perform(run: &Run<'_>) -> Result<Option<Outcome>, AllocError> {
        let mut script = run.script();
        let mut beside = run.other(BESIDE);
        operate(run, (&mut beside).zip(&mut script))
    }

    fn expected(given: &Given) -> Result<Vec<Seen>, AllocError> {
        let beside = whole(BESIDE)?;
        zipped(beside.as_slice(), given.all.as_slice())
    }
}

/// What the inner script of an item yields.
pub fn inner_of(x: u32) -> [Answer; 4] {
    if x == 1 {
        [
            Answer::Item(3),
            Answer::Failure(6),
            Answer::Item(4),
            Answer::End,
        ]
    } else {
        [
            Answer::Failure(6),
            Answer::Item(5),
            Answer::End,
            Answer::Item(6),
        ]
    }
}

/// `flatten` of a script whose items become inner scripts.
pub struct FlattenedOuter;

impl Case for FlattenedOuter {
    fn name() -> &'static str {
        "flatten, outer"
    }

    fn perform(run: &Run<'_>) -> Result<Option<Outcome>, AllocError> {
        let mut script = run.script();
        let nest = (&mut script)
            .map(|x: u32| Ok(run.other(inner_of(x))))
            .flatten();
        operate(run, nest)
    }

    fn expected(given: &Given) -> Result<Vec<Seen>, AllocError> {
        joined(given.all.as_slice(), inner_of)
    }
}

// The outer script of the cases whose inner script is the one that is driven.
const OUTER: [Answer; 4] = [
    Answer::Item(1),
    Answer::Item(2),
    Answer::Failure(9),
    Answer::Item(1),
];

/// `flatten` where the script is what 1 becomes.
pub struct FlattenedInner;

impl Case for FlattenedInner {
    fn name() -> &'static str {
        "flatten, inner"
    }

    fn perform(run: &Run<'_>) -> Result<Option<Outcome>, AllocError> {
        let mut outer = run.other(OUTER);
        let nest = (&mut outer)
            .map(|x: u32| {
                Ok(if x == 1 {
                    run.script()
                } else {
                    run.other(inner_of(x))
                })
            })
            .flatten();
        operate(run, nest)
    }

    fn expected(given: &Given) -> Result<Vec<Seen>, AllocError> {
        let answers = given.answers;
        let outer = whole(OUTER)?;
        joined(
            outer.as_slice(),
            |x: u32| {
                if x == 1 { answers } else { inner_of(x) }
            },
        )
    }
}

/// `flat_map` of the script to inner scripts, which fails with 8 on each third call.
pub struct FlatMappedOuter;

impl Case for FlatMappedOuter {
    fn name() -> &'static str {
        "flat_map, outer"
    }

    fn perform(run: &Run<'_>) -> Result<Option<Outcome>, AllocError> {
        let mut script = run.script();
        let mut calls: u32 = 0;
        let nest = (&mut script).flat_map(|x: u32| {
            calls = calls.wrapping_add(1);
            if calls % 3 == 0 {
                Err(Failed(8))
            } else {
                Ok(run.other(inner_of(x)))
            }
        });
        operate(run, nest)
    }

    fn expected(given: &Given) -> Result<Vec<Seen>, AllocError> {
        let mut items: u32 = 0;
        let outer = each(given.all.as_slice(), |answer: Answer| {
            if let Answer::Item(_) = answer {
                items = items.wrapping_add(1);
                if items % 3 == 0 {
                    Some(Answer::Failure(8))
                } else {
                    Some(answer)
                }
            } else {
                Some(answer)
            }
        })?;
        joined(outer.as_slice(), inner_of)
    }
}

/// `flat_map` of two items, of which the first becomes the script.
pub struct FlatMappedInner;

impl Case for FlatMappedInner {
    fn name() -> &'static str {
        "flat_map, inner"
    }

    fn perform(run: &Run<'_>) -> Result<Option<Outcome>, AllocError> {
        let mut outer = run.other(OUTER);
        let nest = (&mut outer).flat_map(|x: u32| {
            Ok(if x == 1 {
                run.script()
            } else {
                run.other(inner_of(x))
            })
        });
        operate(run, nest)
    }

    fn expected(given: &Given) -> Result<Vec<Seen>, AllocError> {
        let answers = given.answers;
        let outer = whole(OUTER)?;
        joined(
            outer.as_slice(),
            |x: u32| {
                if x == 1 { answers } else { inner_of(x) }
            },
        )
    }
}

/// `cycle` of the script, in `take(8)`.
pub struct Cycled;

impl Case for Cycled {
    fn name() -> &'static str {
        "cycle, in take(8)"
    }

    fn perform(run: &Run<'_>) -> Result<Option<Outcome>, AllocError> {
        operate(run, run.script().cycle().take(8))
    }

    fn expected(given: &Given) -> Result<Vec<Seen>, AllocError> {
        let laps = cycled(given.all.as_slice(), 0)?;
        taken(laps.as_slice(), 8)
    }
}
