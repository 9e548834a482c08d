//! Adapters that copy their items, or stop by a closure.

use crate::AllocError;
use crate::answer::{Failed, Seen};
use crate::case::Run;
use crate::itertools_rules::{peeked_while, taken_while_inclusive};
use crate::layers::{Layer, Visit};
use crate::operation::Outcome;
use crate::rules::{POINTED_TO, by_calls, pointed_to};
use fallible_iterator::FallibleIterator;
use fallible_itertools::{FallibleItertools, PeekingNext};

/// `copied` of a reference for each item.
pub struct CopiesOfMapped;

impl Layer for CopiesOfMapped {
    fn name() -> &'static str {
        "copied of map"
    }

    fn over<I, V: Visit>(run: &Run<'_>, it: I) -> Result<Option<Outcome>, AllocError>
    where
        I: FallibleIterator<Item = u32, Error = Failed>,
    {
        let numbers = &POINTED_TO;
        let nest = it.map(|x: u32| Ok(&numbers[(x % 8) as usize])).copied();
        V::visit(run, nest)
    }

    fn rule(source: &[Seen], _made: u32) -> Result<Vec<Seen>, AllocError> {
        pointed_to(source)
    }
}

/// `take_while_inclusive` by a closure that fails on its first call, is true on the second, and false on the third.
pub struct TakenWhileInclusive;

impl Layer for TakenWhileInclusive {
    fn name() -> &'static str {
        "take_while_inclusive, by calls"
    }

    fn over<I, V: Visit>(run: &Run<'_>, it: I) -> Result<Option<Outcome>, AllocError>
    where
        I: FallibleIterator<Item = u32, Error = Failed>,
    {
        let mut calls: u32 = 0;
        let nest = it.take_while_inclusive(|x: &u32| {
            let before = calls;
            calls = calls.wrapping_add(1);
            by_calls(before, *x).map_err(Failed)
        });
        V::visit(run, nest)
    }

    fn rule(source: &[Seen], _made: u32) -> Result<Vec<Seen>, AllocError> {
        taken_while_inclusive(source)
    }
}

/// `peeking_take_while` of a `peekable`, by a closure that is true on odd calls and fails on each third call.
pub struct PeekedWhile;

impl Layer for PeekedWhile {
    fn name() -> &'static str {
        "peeking_take_while, by calls"
    }

    fn over<I, V: Visit>(run: &Run<'_>, it: I) -> Result<Option<Outcome>, AllocError>
    where
        I: FallibleIterator<Item = u32, Error = Failed>,
    {
        let mut ahead = it.peekable();
        let mut calls: u32 = 0;
        let nest = ahead.peeking_take_while(|x: &u32| {
            calls = calls.wrapping_add(1);
            by_calls(calls, *x).map_err(Failed)
        });
        V::visit(run, nest)
    }

    fn rule(source: &[Seen], _made: u32) -> Result<Vec<Seen>, AllocError> {
        peeked_while(source)
    }
}
