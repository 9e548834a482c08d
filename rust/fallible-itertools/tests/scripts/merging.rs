//! Adapters that join two sources and hold what comes next of either.

use crate::AllocError;
use crate::answer::{Answer, Failed, Seen};
use crate::case::{Case, Given, Run};
use crate::itertools_rules::{
    at_index, interleaved, joined_in_order, merged, merged_in_order, merged_of_all,
    ordering_by_calls, padded_by_calls, zipped_equal, zipped_longest,
};
use crate::joining::BESIDE;
use crate::layers::{Layer, Visit};
use crate::lists::whole;
use crate::operating::operate;
use crate::operation::Outcome;
use crate::rules::by_calls;
use crate::script::Script;
use fallible_iterator::FallibleIterator;
use fallible_itertools::{FallibleItertools, kmerge, kmerge_by};

/// The source merged with a script, by a closure that is true on odd calls and fails on each third call.
pub struct MergedLeft;

impl Layer for MergedLeft {
    fn name() -> &'static str {
        "merge_by, left"
    }

    fn over<I, V: Visit>(run: &Run<'_>, it: I) -> Result<Option<Outcome>, AllocError>
    where
        I: FallibleIterator<Item = u32, Error = Failed>,
    {
        let mut beside = run.other(BESIDE);
        let mut calls: u32 = 0;
        let nest = it.merge_by(&mut beside, |x: &u32, y: &u32| {
            calls = calls.wrapping_add(1);
            by_calls(calls, (*x).wrapping_mul(10).wrapping_add(*y)).map_err(Failed)
        });
        V::visit(run, nest)
    }

    fn rule(source: &[Seen], _made: u32) -> Result<Vec<Seen>, AllocError> {
        let beside = whole(BESIDE)?;
        merged(source, beside.as_slice(), 0)
    }
}

/// A script merged with the source, by a closure that is true on odd calls and fails on each third call.
pub struct MergedRight;

impl Layer for MergedRight {
    fn name() -> &'static str {
        "merge_by, right"
    }

    fn over<I, V: Visit>(run: &Run<'_>, it: I) -> Result<Option<Outcome>, AllocError>
    where
        I: FallibleIterator<Item = u32, Error = Failed>,
    {
        let mut beside = run.other(BESIDE);
        let mut calls: u32 = 0;
        let nest = (&mut beside).merge_by(it, |x: &u32, y: &u32| {
            calls = calls.wrapping_add(1);
            by_calls(calls, (*x).wrapping_mul(10).wrapping_add(*y)).map_err(Failed)
        });
        V::visit(run, nest)
    }

    fn rule(source: &[Seen], made: u32) -> Result<Vec<Seen>, AllocError> {
        let beside = whole(BESIDE)?;
        merged(beside.as_slice(), source, made)
    }
}

/// The script merged with another by their order.
pub struct MergedInOrder;

impl Case for MergedInOrder {
    fn name() -> &'static str {
        "merge"
    }

    fn perform(run: &Run<'_>) -> Result<Option<Outcome>, AllocError> {
        let mut script = run.script();
        let mut beside = run.other(BESIDE);
        operate(run, (&mut script).merge(&mut beside))
    }

    fn expected(given: &Given) -> Result<Vec<Seen>, AllocError> {
        let beside = whole(BESIDE)?;
        merged_in_order(given.all.as_slice(), beside.as_slice())
    }
}

// What stands beside both: two items, one of which the script may have too, a failure and an item.
const BESIDE_BOTH: [Answer; 4] = [
    Answer::Item(1),
    Answer::Item(6),
    Answer::Failure(8),
    Answer::Item(2),
];

/// The script merged with another by their order, as one of many.
pub struct ManyOfTwo;

impl Case for ManyOfTwo {
    fn name() -> &'static str {
        "kmerge of two"
    }

    fn perform(run: &Run<'_>) -> Result<Option<Outcome>, AllocError> {
        let mut sources: Vec<Script<'_>> = Vec::new();
        sources.push(run.script());
        sources.push(run.other(BESIDE));
        operate(run, kmerge(sources))
    }

    fn expected(given: &Given) -> Result<Vec<Seen>, AllocError> {
        let mut lists = Vec::new();
        lists.push(whole(given.answers)?);
        lists.push(whole(BESIDE)?);
        merged_of_all(lists.as_slice(), |x: u32, y: u32| x <= y)
    }
}

/// The script merged with two others by their order.
pub struct ManyOfThree;

impl Case for ManyOfThree {
    fn name() -> &'static str {
        "kmerge of three"
    }

    fn perform(run: &Run<'_>) -> Result<Option<Outcome>, AllocError> {
        let mut sources: Vec<Script<'_>> = Vec::new();
        sources.push(run.other(BESIDE));
        sources.push(run.script());
        sources.push(run.other(BESIDE_BOTH));
        operate(run, kmerge(sources))
    }

    fn expected(given: &Given) -> Result<Vec<Seen>, AllocError> {
        let mut lists = Vec::new();
        lists.push(whole(BESIDE)?);
        lists.push(whole(given.answers)?);
        lists.push(whole(BESIDE_BOTH)?);
        merged_of_all(lists.as_slice(), |x: u32, y: u32| x <= y)
    }
}

/// The script merged with another, as one of many, by a closure that is true on odd calls and fails on each third call.
pub struct ManyByCalls;

impl Case for ManyByCalls {
    fn name() -> &'static str {
        "kmerge_by of two, by calls"
    }

    fn perform(run: &Run<'_>) -> Result<Option<Outcome>, AllocError> {
        let mut sources: Vec<Script<'_>> = Vec::new();
        sources.push(run.script());
        sources.push(run.other(BESIDE_BOTH));
        let mut calls: u32 = 0;
        let nest = kmerge_by(sources, |x: &u32, y: &u32| {
            calls = calls.wrapping_add(1);
            by_calls(calls, (*x).wrapping_mul(10).wrapping_add(*y)).map_err(Failed)
        });
        operate(run, nest)
    }

    fn expected(given: &Given) -> Result<Vec<Seen>, AllocError> {
        let beside = whole(BESIDE_BOTH)?;
        merged(given.all.as_slice(), beside.as_slice(), 0)
    }
}

/// The script merged with two others, the greater item first.
pub struct ManyGreaterFirst;

impl Case for ManyGreaterFirst {
    fn name() -> &'static str {
        "kmerge_by of three"
    }

    fn perform(run: &Run<'_>) -> Result<Option<Outcome>, AllocError> {
        let mut sources: Vec<Script<'_>> = Vec::new();
        sources.push(run.script());
        sources.push(run.other(BESIDE_BOTH));
        sources.push(run.other(BESIDE));
        operate(run, kmerge_by(sources, |x: &u32, y: &u32| Ok(*x >= *y)))
    }

    fn expected(given: &Given) -> Result<Vec<Seen>, AllocError> {
        let mut lists = Vec::new();
        lists.push(whole(given.answers)?);
        lists.push(whole(BESIDE_BOTH)?);
        lists.push(whole(BESIDE)?);
        merged_of_all(lists.as_slice(), |x: u32, y: u32| x >= y)
    }
}

/// The script zipped with another, up to the end of both.
pub struct ZippedLongestLeft;

impl Case for ZippedLongestLeft {
    fn name() -> &'static str {
        "zip_longest, left"
    }

    fn perform(run: &Run<'_>) -> Result<Option<Outcome>, AllocError> {
        let mut script = run.script();
        let mut beside = run.other(BESIDE);
        operate(run, (&mut script).zip_longest(&mut beside))
    }

    fn expected(given: &Given) -> Result<Vec<Seen>, AllocError> {
        let beside = whole(BESIDE)?;
        zipped_longest(given.all.as_slice(), beside.as_slice())
    }
}

/// Another script zipped with the script, up to the end of both.
pub struct ZippedLongestRight;

impl Case for ZippedLongestRight {
    fn name() -> &'static str {
        "zip_longest, right"
    }

    fn perform(run: &Run<'_>) -> Result<Option<Outcome>, AllocError> {
        let mut script = run.script();
        let mut beside = run.other(BESIDE);
        operate(run, (&mut beside).zip_longest(&mut script))
    }

    fn expected(given: &Given) -> Result<Vec<Seen>, AllocError> {
        let beside = whole(BESIDE)?;
        zipped_longest(beside.as_slice(), given.all.as_slice())
    }
}

/// The script zipped with another, which has to be as long.
pub struct ZippedEqualLeft;

impl Case for ZippedEqualLeft {
    fn name() -> &'static str {
        "zip_eq, left"
    }

    fn perform(run: &Run<'_>) -> Result<Option<Outcome>, AllocError> {
        let mut script = run.script();
        let mut beside = run.other(BESIDE);
        let mut calls: u32 = 50;
        let pairs = (&mut script).zip_eq(&mut beside, || {
            calls = calls.wrapping_add(1);
            Failed(calls)
        });
        operate(run, pairs)
    }

    fn expected(given: &Given) -> Result<Vec<Seen>, AllocError> {
        let beside = whole(BESIDE)?;
        zipped_equal(given.all.as_slice(), beside.as_slice())
    }
}

/// Another script zipped with the script, which has to be as long.
pub struct ZippedEqualRight;

impl Case for ZippedEqualRight {
    fn name() -> &'static str {
        "zip_eq, right"
    }

    fn perform(run: &Run<'_>) -> Result<Option<Outcome>, AllocError> {
        let mut script = run.script();
        let mut beside = run.other(BESIDE);
        let mut calls: u32 = 50;
        let pairs = (&mut beside).zip_eq(&mut script, || {
            calls = calls.wrapping_add(1);
            Failed(calls)
        });
        operate(run, pairs)
    }

    fn expected(given: &Given) -> Result<Vec<Seen>, AllocError> {
        let beside = whole(BESIDE)?;
        zipped_equal(beside.as_slice(), given.all.as_slice())
    }
}

/// The script joined with another in order, by a closure that fails on each third call.
pub struct JoinedInOrderLeft;

impl Case for JoinedInOrderLeft {
    fn name() -> &'static str {
        "merge_join_by, left"
    }

    fn perform(run: &Run<'_>) -> Result<Option<Outcome>, AllocError> {
        let mut script = run.script();
        let mut beside = run.other(BESIDE);
        let mut calls: u32 = 0;
        let joined = (&mut script).merge_join_by(&mut beside, |x: &u32, y: &u32| {
            calls = calls.wrapping_add(1);
            ordering_by_calls(calls, *x, *y).map_err(Failed)
        });
        operate(run, joined)
    }

    fn expected(given: &Given) -> Result<Vec<Seen>, AllocError> {
        let beside = whole(BESIDE)?;
        joined_in_order(given.all.as_slice(), beside.as_slice())
    }
}

/// Another script joined with the script in order, by a closure that fails on each third call.
pub struct JoinedInOrderRight;

impl Case for JoinedInOrderRight {
    fn name() -> &'static str {
        "merge_join_by, right"
    }

    fn perform(run: &Run<'_>) -> Result<Option<Outcome>, AllocError> {
        let mut script = run.script();
        let mut beside = run.other(BESIDE);
        let mut calls: u32 = 0;
        let joined = (&mut beside).merge_join_by(&mut script, |x: &u32, y: &u32| {
            calls = calls.wrapping_add(1);
            ordering_by_calls(calls, *x, *y).map_err(Failed)
        });
        operate(run, joined)
    }

    fn expected(given: &Given) -> Result<Vec<Seen>, AllocError> {
        let beside = whole(BESIDE)?;
        joined_in_order(beside.as_slice(), given.all.as_slice())
    }
}

/// The script and another in turn.
pub struct InterleavedLeft;

impl Case for InterleavedLeft {
    fn name() -> &'static str {
        "interleave, left"
    }

    fn perform(run: &Run<'_>) -> Result<Option<Outcome>, AllocError> {
        let mut script = run.script();
        let mut beside = run.other(BESIDE);
        operate(run, (&mut script).interleave(&mut beside))
    }

    fn expected(given: &Given) -> Result<Vec<Seen>, AllocError> {
        let beside = whole(BESIDE)?;
        interleaved(given.all.as_slice(), beside.as_slice())
    }
}

/// Another script and the script in turn.
pub struct InterleavedRight;

impl Case for InterleavedRight {
    fn name() -> &'static str {
        "interleave, right"
    }

    fn perform(run: &Run<'_>) -> Result<Option<Outcome>, AllocError> {
        let mut script = run.script();
        let mut beside = run.other(BESIDE);
        operate(run, (&mut beside).interleave(&mut script))
    }

    fn expected(given: &Given) -> Result<Vec<Seen>, AllocError> {
        let beside = whole(BESIDE)?;
        interleaved(beside.as_slice(), given.all.as_slice())
    }
}

/// `pad_using(3, f)`, by an f that fails on each second call.
pub struct PaddedByCalls;

impl Layer for PaddedByCalls {
    fn name() -> &'static str {
        "pad_using(3), by calls"
    }

    fn over<I, V: Visit>(run: &Run<'_>, it: I) -> Result<Option<Outcome>, AllocError>
    where
        I: FallibleIterator<Item = u32, Error = Failed>,
    {
        let mut calls: u32 = 0;
        let nest = it.pad_using(3, |index: usize| {
            calls = calls.wrapping_add(1);
            at_index(calls, index as u32).map_err(Failed)
        });
        V::visit(run, nest)
    }

    fn rule(source: &[Seen], _made: u32) -> Result<Vec<Seen>, AllocError> {
        padded_by_calls(source)
    }
}
