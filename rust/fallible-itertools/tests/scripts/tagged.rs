//! Calls over items that are equal where their keys are, and that their places still tell apart: which of equal items is yielded, and in which order.

use crate::AllocError;
use crate::answer::{Answer, Coded, Failed, append_digit, pair_code};
use crate::case::Given;
use crate::driving::Tally;
use crate::lists::{LISTS, list_at};
use crate::script::Script;
use fallible_iterator::{FallibleIterator, Fault};
use fallible_itertools::{FallibleItertools, MinMaxResult};
use std::cell::Cell;
use std::cmp::Ordering;
use std::hash::{Hash, Hasher};
use std::io;

/// A key, by which it compares and hashes, and its place among the items, which begin at 1.
#[derive(Clone, Copy, Debug)]
pub struct Tagged {
    key: u32,
    place: u32,
}

impl PartialEq for Tagged {
    fn eq(&self, other: &Tagged) -> bool {
        self.key == other.key
    }
}

impl Eq for Tagged {}

impl PartialOrd for Tagged {
    fn partial_cmp(&self, other: &Tagged) -> Option<Ordering> {
        Some(self.cmp(other))
    }
}

impl Ord for Tagged {
    fn cmp(&self, other: &Tagged) -> Ordering {
        self.key.cmp(&other.key)
    }
}

impl Hash for Tagged {
    fn hash<H: Hasher>(&self, state: &mut H) {
        self.key.hash(state);
    }
}

impl Coded for Tagged {
    fn code(&self) -> u32 {
        self.key.wrapping_mul(10).wrapping_add(self.place)
    }
}

// A call that takes a script.
#[derive(Clone, Copy, Debug)]
enum Call {
    Dedup,
    Unique,
    Duplicates,
    Sorted,
    SortedBy,
    // of two
    KSmallest,
    MinMax,
    Max,
    Min,
}

/// Makes each call over every script, prints the first mismatch and then the tally, and adds this to the total.
pub fn drive_tagged(total: &mut Tally) -> io::Result<()> {
    let mut tally = Tally::none();
    let calls = [
        Call::Dedup,
        Call::Unique,
        Call::Duplicates,
        Call::Sorted,
        Call::SortedBy,
        Call::KSmallest,
        Call::MinMax,
        Call::Max,
        Call::Min,
    ];
    for call in calls {
        let mut of_call = Tally::none();
        for number in 0..LISTS {
            let answers = list_at(number);
            let given = Given::new(answers)?;
            let draws = Cell::new(0);
            let got = make(call, Script::new(answers, &draws))?;
            let wanted = wanted(call, &given)?;
            if of_call.add(got == wanted) {
                println!("tagged items: {answers:?}: {call:?}: wanted {wanted:?}, got {got:?}");
            }
        }
        tally.add_all(of_call);
    }
    let cases = tally.cases;
    let mismatches = tally.mismatches;
    println!("calls of equal items that differ: {cases} cases, {mismatches} mismatches");
    total.add_all(tally);
    Ok(())
}

// Makes the call.
fn make(call: Call, mut script: Script<'_>) -> Result<Answer, AllocError> {
    let mut place: u32 = 0;
    let items = (&mut script).map(|key: u32| {
        place = place.wrapping_add(1);
        Ok(Tagged { key, place })
    });
    match call {
        Call::Dedup => read(items.dedup().collect()),
        Call::Unique => read(items.unique().collect()),
        Call::Duplicates => read(items.duplicates().collect()),
        Call::Sorted => read(items.sorted()),
        Call::SortedBy => read(items.sorted_by(|x: &Tagged, y: &Tagged| x.cmp(y))),
        Call::KSmallest => read(items.k_smallest(2)),
        Call::MinMax => Ok(match items.minmax() {
            Ok(MinMaxResult::NoElements) => Answer::End,
            Ok(MinMaxResult::OneElement(only)) => Answer::Item(pair_code(only.code(), only.code())),
            Ok(MinMaxResult::MinMax(least, greatest)) => {
                Answer::Item(pair_code(least.code(), greatest.code()))
            }
            Err(e) => Answer::Failure(e.0),
        }),
        Call::Max => Ok(Answer::of(items.max())),
        Call::Min => Ok(Answer::of(items.min())),
    }
}

// The items as one number, or the failure.
fn read(made: Result<Vec<Tagged>, Failed>) -> Result<Answer, AllocError> {
    match made {
        Ok(items) => Ok(Answer::Item(codes(items.as_slice()))),
        Err(e) => Ok(Answer::Failure(e.0)),
    }
}

// The items as one number.
fn codes(items: &[Tagged]) -> u32 {
    let mut read: u32 = 0;
    for item in items {
        read = append_digit(read, item.code());
    }
    read
}

// What the call must come to, by the whole list: of equal items the first one stands for all, the greatest and the least are the last of equals, but of `minmax` the least is the first, and sorts keep the order of equals.
fn wanted(call: Call, given: &Given) -> Result<Answer, AllocError> {
    let mut ones = Vec::new();
    let mut twos = Vec::new();
    let mut runs = Vec::new();
    let mut firsts = Vec::new();
    let mut seconds = Vec::new();
    let mut place: u32 = 0;
    let mut last: u32 = 0;
    for seen in &given.all {
        let key = match seen.answer {
            Answer::Item(x) => x,
            Answer::Failure(e) => return Ok(Answer::Failure(e)),
            Answer::End => break,
        };
        place = place.wrapping_add(1);
        let item = Tagged { key, place };
        if key != last {
            runs.push(item);
        }
        last = key;
        let before = if key == 1 { ones.len() } else { twos.len() };
        if before == 0 {
            firsts.push(item);
        } else if before == 1 {
            seconds.push(item);
        }
        if key == 1 {
            ones.push(item);
        } else {
            twos.push(item);
        }
    }
    let mut sorted = Vec::new();
    for item in ones.as_slice() {
        sorted.push(*item);
    }
    for item in twos.as_slice() {
        sorted.push(*item);
    }
    let least = sorted.as_slice().first().copied();
    let greatest = sorted.as_slice().last().copied();
    Ok(match call {
        Call::Dedup => Answer::Item(codes(runs.as_slice())),
        Call::Unique => Answer::Item(codes(firsts.as_slice())),
        Call::Duplicates => Answer::Item(codes(seconds.as_slice())),
        Call::Sorted | Call::SortedBy => Answer::Item(codes(sorted.as_slice())),
        Call::KSmallest => {
            let kept = sorted.len().min(2);
            Answer::Item(codes(&sorted.as_slice()[..kept]))
        }
        Call::MinMax => match (least, greatest) {
            (Some(least), Some(greatest)) => Answer::Item(pair_code(least.code(), greatest.code())),
            _ => Answer::End,
        },
        Call::Max => Answer::of(Ok(greatest)),
        Call::Min => Answer::of(Ok(if ones.is_empty() {
            greatest
        } else {
            ones.as_slice().last().copied()
        })),
    })
}
