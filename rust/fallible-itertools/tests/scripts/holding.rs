//! Adapters that hold what they drew until a later answer comes.

use crate::AllocError;
use crate::answer::{Failed, Seen};
use crate::case::{Case, Given, Run};
use crate::itertools_rules::{
    chunked_by_key, coalesced, coalesced_by_calls, counted, counted_by, deduped, deduped_by,
    deduped_by_key, duplicates, in_twos, key_by_calls, positioned, separated, separated_by_calls,
    tupled, unique, unique_by, windowed,
};
use crate::layers::{Layer, Visit};
use crate::operating::operate;
use crate::operation::Outcome;
use crate::rules::by_calls;
use fallible_iterator::FallibleIterator;
use fallible_itertools::FallibleItertools;

/// `dedup`.
pub struct Deduped;

impl Layer for Deduped {
    fn name() -> &'static str {
        "dedup"
    }

    fn over<I, V: Visit>(run: &Run<'_>, it: I) -> Result<Option<Outcome>, AllocError>
    where
        I: FallibleIterator<Item = u32, Error = Failed>,
    {
        V::visit(run, it.dedup())
    }

    fn rule(source: &[Seen], _made: u32) -> Result<Vec<Seen>, AllocError> {
        deduped(source)
    }
}

/// `dedup_by_key` by the item itself, one more from the fourth call on; it fails on each third call.
pub struct DedupedByKey;

impl Layer for DedupedByKey {
    fn name() -> &'static str {
        "dedup_by_key, by calls"
    }

    fn over<I, V: Visit>(run: &Run<'_>, it: I) -> Result<Option<Outcome>, AllocError>
    where
        I: FallibleIterator<Item = u32, Error = Failed>,
    {
        let mut calls: u32 = 0;
        let nest = it.dedup_by_key(|x: &u32| {
            calls = calls.wrapping_add(1);
            key_by_calls(calls, *x).map_err(Failed)
        });
        V::visit(run, nest)
    }

    fn rule(source: &[Seen], _made: u32) -> Result<Vec<Seen>, AllocError> {
        deduped_by_key(source)
    }
}

/// `dedup_by` by a closure that is true on odd calls and fails on each third call.
pub struct DedupedBy;

impl Layer for DedupedBy {
    fn name() -> &'static str {
        "dedup_by, by calls"
    }

    fn over<I, V: Visit>(run: &Run<'_>, it: I) -> Result<Option<Outcome>, AllocError>
    where
        I: FallibleIterator<Item = u32, Error = Failed>,
    {
        let mut calls: u32 = 0;
        let nest = it.dedup_by(|first: &u32, second: &u32| {
            calls = calls.wrapping_add(1);
            by_calls(calls, (*first).wrapping_mul(10).wrapping_add(*second)).map_err(Failed)
        });
        V::visit(run, nest)
    }

    fn rule(source: &[Seen], _made: u32) -> Result<Vec<Seen>, AllocError> {
        deduped_by(source)
    }
}

/// `dedup_with_count`.
pub struct Counted;

impl Case for Counted {
    fn name() -> &'static str {
        "dedup_with_count"
    }

    fn perform(run: &Run<'_>) -> Result<Option<Outcome>, AllocError> {
        let mut script = run.script();
        operate(run, (&mut script).dedup_with_count())
    }

    fn expected(given: &Given) -> Result<Vec<Seen>, AllocError> {
        counted(given.all.as_slice())
    }
}

/// `dedup_by_with_count` by a closure that is true on odd calls and fails on each third call.
pub struct CountedBy;

impl Case for CountedBy {
    fn name() -> &'static str {
        "dedup_by_with_count, by calls"
    }

    fn perform(run: &Run<'_>) -> Result<Option<Outcome>, AllocError> {
        let mut script = run.script();
        let mut calls: u32 = 0;
        let nest = (&mut script).dedup_by_with_count(|first: &u32, second: &u32| {
            calls = calls.wrapping_add(1);
            by_calls(calls, (*first).wrapping_mul(10).wrapping_add(*second)).map_err(Failed)
        });
        operate(run, nest)
    }

    fn expected(given: &Given) -> Result<Vec<Seen>, AllocError> {
        counted_by(given.all.as_slice())
    }
}

/// `coalesce` to one item on odd calls, and to both in the other order; it fails on each third call.
pub struct Coalesced;

impl Layer for Coalesced {
    fn name() -> &'static str {
        "coalesce, by calls"
    }

    fn over<I, V: Visit>(run: &Run<'_>, it: I) -> Result<Option<Outcome>, AllocError>
    where
        I: FallibleIterator<Item = u32, Error = Failed>,
    {
        let mut calls: u32 = 0;
        let nest = it.coalesce(|first: u32, second: u32| {
            calls = calls.wrapping_add(1);
            coalesced_by_calls(calls, first, second).map_err(Failed)
        });
        V::visit(run, nest)
    }

    fn rule(source: &[Seen], _made: u32) -> Result<Vec<Seen>, AllocError> {
        coalesced(source)
    }
}

/// `with_position`.
pub struct Positioned;

impl Case for Positioned {
    fn name() -> &'static str {
        "with_position"
    }

    fn perform(run: &Run<'_>) -> Result<Option<Outcome>, AllocError> {
        let mut script = run.script();
        operate(run, (&mut script).with_position())
    }

    fn expected(given: &Given) -> Result<Vec<Seen>, AllocError> {
        positioned(given.all.as_slice())
    }
}

/// `chunk_by` of the item itself, one more from the fourth call on; it fails on each third call.
pub struct ChunkedByKey;

impl Case for ChunkedByKey {
    fn name() -> &'static str {
        "chunk_by, by calls"
    }

    fn perform(run: &Run<'_>) -> Result<Option<Outcome>, AllocError> {
        let mut script = run.script();
        let mut calls: u32 = 0;
        let nest = (&mut script).chunk_by(|x: &u32| {
            calls = calls.wrapping_add(1);
            key_by_calls(calls, *x).map_err(Failed)
        });
        operate(run, nest)
    }

    fn expected(given: &Given) -> Result<Vec<Seen>, AllocError> {
        chunked_by_key(given.all.as_slice())
    }
}

/// `chunks(2)`.
pub struct InTwos;

impl Case for InTwos {
    fn name() -> &'static str {
        "chunks(2)"
    }

    fn perform(run: &Run<'_>) -> Result<Option<Outcome>, AllocError> {
        let mut script = run.script();
        operate(run, (&mut script).chunks(2))
    }

    fn expected(given: &Given) -> Result<Vec<Seen>, AllocError> {
        in_twos(given.all.as_slice())
    }
}

/// `unique`.
pub struct Unique;

impl Case for Unique {
    fn name() -> &'static str {
        "unique"
    }

    fn perform(run: &Run<'_>) -> Result<Option<Outcome>, AllocError> {
        let mut script = run.script();
        operate(run, (&mut script).unique())
    }

    fn expected(given: &Given) -> Result<Vec<Seen>, AllocError> {
        unique(given.all.as_slice())
    }
}

/// `unique_by` by the item itself, one more from the fourth call on; it fails on each third call.
pub struct UniqueBy;

impl Case for UniqueBy {
    fn name() -> &'static str {
        "unique_by, by calls"
    }

    fn perform(run: &Run<'_>) -> Result<Option<Outcome>, AllocError> {
        let mut script = run.script();
        let mut calls: u32 = 0;
        let it = (&mut script).unique_by(|x: &u32| {
            calls = calls.wrapping_add(1);
            key_by_calls(calls, *x).map_err(Failed)
        });
        operate(run, it)
    }

    fn expected(given: &Given) -> Result<Vec<Seen>, AllocError> {
        unique_by(given.all.as_slice())
    }
}

/// `duplicates`.
pub struct Duplicates;

impl Case for Duplicates {
    fn name() -> &'static str {
        "duplicates"
    }

    fn perform(run: &Run<'_>) -> Result<Option<Outcome>, AllocError> {
        let mut script = run.script();
        operate(run, (&mut script).duplicates())
    }

    fn expected(given: &Given) -> Result<Vec<Seen>, AllocError> {
        duplicates(given.all.as_slice())
    }
}

/// `tuple_windows`.
pub struct Windowed;

impl Case for Windowed {
    fn name() -> &'static str {
        "tuple_windows"
    }

    fn perform(run: &Run<'_>) -> Result<Option<Outcome>, AllocError> {
        let mut script = run.script();
        operate(run, (&mut script).tuple_windows())
    }

    fn expected(given: &Given) -> Result<Vec<Seen>, AllocError> {
        windowed(given.all.as_slice())
    }
}

/// `tuples`.
pub struct Tupled;

impl Case for Tupled {
    fn name() -> &'static str {
        "tuples"
    }

    fn perform(run: &Run<'_>) -> Result<Option<Outcome>, AllocError> {
        let mut script = run.script();
        operate(run, (&mut script).tuples())
    }

    fn expected(given: &Given) -> Result<Vec<Seen>, AllocError> {
        tupled(given.all.as_slice())
    }
}

/// `intersperse` of 7.
pub struct Separated;

impl Layer for Separated {
    fn name() -> &'static str {
        "intersperse"
    }

    fn over<I, V: Visit>(run: &Run<'_>, it: I) -> Result<Option<Outcome>, AllocError>
    where
        I: FallibleIterator<Item = u32, Error = Failed>,
    {
        V::visit(run, it.intersperse(7))
    }

    fn rule(source: &[Seen], _made: u32) -> Result<Vec<Seen>, AllocError> {
        separated(source, 7)
    }
}

/// `intersperse_with` of a closure that returns 7, one more from the fourth call on; it fails on each third call.
pub struct SeparatedByCalls;

impl Layer for SeparatedByCalls {
    fn name() -> &'static str {
        "intersperse_with, by calls"
    }

    fn over<I, V: Visit>(run: &Run<'_>, it: I) -> Result<Option<Outcome>, AllocError>
    where
        I: FallibleIterator<Item = u32, Error = Failed>,
    {
        let mut calls: u32 = 0;
        let nest = it.intersperse_with(|| {
            calls = calls.wrapping_add(1);
            key_by_calls(calls, 7).map_err(Failed)
        });
        V::visit(run, nest)
    }

    fn rule(source: &[Seen], _made: u32) -> Result<Vec<Seen>, AllocError> {
        separated_by_calls(source)
    }
}
