//! Nests of several adapters.

use crate::AllocError;
use crate::answer::{Answer, Failed, Seen};
use crate::case::{Case, Given, Run};
use crate::joining::{BESIDE, inner_of};
use crate::lists::whole;
use crate::operating::operate;
use crate::operation::Outcome;
use crate::rules::{
    by_calls, chained, filtered_by_calls, fused, joined, mapped_by_calls, taken, without_lost_first,
};
use fallible_iterator::FallibleIterator;

/// `Take<Map<Filter<..>>>`, whose closures answer by how often they were called.
pub struct FilteredMappedTaken;

impl Case for FilteredMappedTaken {
    fn name() -> &'static str {
        "take(2) of map of filter"
    }

    fn perform(run: &Run<'_>) -> Result<Option<Outcome>, AllocError> {
        let mut script = run.script();
        let mut asked: u32 = 0;
        let mut mapped: u32 = 0;
        let nest = (&mut script)
            .filter(|x: &u32| {
                asked = asked.wrapping_add(1);
                by_calls(asked, *x).map_err(Failed)
            })
            .map(|x: u32| {
                mapped = mapped.wrapping_add(1);
                if mapped % 3 == 0 {
                    Err(Failed(8))
                } else {
                    Ok(x.wrapping_mul(10).wrapping_add(mapped))
                }
            })
            .take(2);
        operate(run, nest)
    }

    fn expected(given: &Given) -> Result<Vec<Seen>, AllocError> {
        let filtered = filtered_by_calls(given.all.as_slice())?;
        let mapped = mapped_by_calls(filtered.as_slice())?;
        taken(mapped.as_slice(), 2)
    }
}

/// `Fuse<Chain<..>>`.
pub struct ChainedFused;

impl Case for ChainedFused {
    fn name() -> &'static str {
        "fuse of chain"
    }

    fn perform(run: &Run<'_>) -> Result<Option<Outcome>, AllocError> {
        let mut script = run.script();
        let mut beside = run.other(BESIDE);
        operate(run, (&mut script).chain(&mut beside).fuse())
    }

    fn expected(given: &Given) -> Result<Vec<Seen>, AllocError> {
        let beside = whole(BESIDE)?;
        let both = chained(given.all.as_slice(), beside.as_slice())?;
        fused(both.as_slice())
    }
}

/// `Peekable<Flatten<..>>`.
pub struct FlattenedPeekable;

impl Case for FlattenedPeekable {
    fn name() -> &'static str {
        "peekable of flatten"
    }

    fn perform(run: &Run<'_>) -> Result<Option<Outcome>, AllocError> {
        let mut script = run.script();
        let nest = (&mut script)
            .map(|x: u32| Ok(run.other(inner_of(x))))
            .flatten()
            .peekable();
        operate(run, nest)
    }

    fn expected(given: &Given) -> Result<Vec<Seen>, AllocError> {
        joined(given.all.as_slice(), inner_of)
    }
}

/// `Peekable<Flatten<..>>` after a peek.
pub struct FlattenedPeeked;

impl Case for FlattenedPeeked {
    fn name() -> &'static str {
        "peekable of flatten, after a peek"
    }

    fn perform(run: &Run<'_>) -> Result<Option<Outcome>, AllocError> {
        let mut script = run.script();
        let mut nest = (&mut script)
            .map(|x: u32| Ok(run.other(inner_of(x))))
            .flatten()
            .peekable();
        let _ = nest.peek_copied();
        operate(run, nest)
    }

    fn expected(given: &Given) -> Result<Vec<Seen>, AllocError> {
        let all = joined(given.all.as_slice(), inner_of)?;
        without_lost_first(all.as_slice(), |answer: Answer| {
            matches!(answer, Answer::Failure(_))
        })
    }
}
