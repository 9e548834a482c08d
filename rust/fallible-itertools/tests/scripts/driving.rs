//! Drives a case by every script.
use crate::AllocError;
use crate::answer::{Answer, Seen};
use crate::case::{Case, Given, Run};
use crate::lists::{LISTS, list_at};
use crate::operation::{Borrowing, FromBack, Operation, Outcome, Taking, wanted};
use std::cell::Cell;
use std::io;

/// How many comparisons were made, and how many of them failed.
#[derive(Clone, Copy)]
pub struct Tally {
    /// comparisons
    pub cases: u64,
    /// those that failed
    pub mismatches: u64,
}

impl Tally {
    /// None yet.
    pub fn none() -> Tally {
        Tally {
            cases: 0,
            mismatches: 0,
        }
    }

    /// One more comparison. Says whether it is the first that failed, which is told.
    pub fn add(&mut self, holds: bool) -> bool {
        self.cases = self.cases.wrapping_add(1);
        if !holds {
            self.mismatches = self.mismatches.wrapping_add(1);
        }
        !holds && self.mismatches == 1
    }

    /// All of another tally.
    pub fn add_all(&mut self, other: Tally) {
        self.cases = self.cases.wrapping_add(other.cases);
        self.mismatches = self.mismatches.wrapping_add(other.mismatches);
    }
}

/// Drives the case by every script, prints the first mismatch and then the tally, and adds this to the total.
pub fn drive<C: Case>(total: &mut Tally) -> io::Result<()> {
    let mut tally = Tally::none();
    drive_each::<C>(&mut tally)?;
    let name = C::name();
    let source = C::source();
    let cases = tally.cases;
    let mismatches = tally.mismatches;
    println!("{name} over {source}: {cases} cases, {mismatches} mismatches");
    total.add_all(tally);
    Ok(())
}

/// Drives the case by every script, prints the first mismatch, and adds what was compared to the total.
pub fn drive_each<C: Case>(total: &mut Tally) -> io::Result<()> {
    let mut tally = Tally::none();
    for number in 0..LISTS {
        let answers = list_at(number);
        compare_trace::<C>(answers, &mut tally)?;
        for j in 0..5 {
            compare_stops::<C>(answers, j, &mut tally)?;
        }
        compare_drains::<C>(answers, &mut tally)?;
    }
    total.add_all(tally);
    Ok(())
}

// Does the operation with a fresh nest.
fn performed<C: Case>(answers: [Answer; 4], operation: Operation) -> io::Result<Option<Outcome>> {
    let draws = Cell::new(0);
    Ok(C::perform(&Run {
        answers,
        operation,
        draws: &draws,
    })?)
}

// The trace of eight answers is the one that the rule yields.
fn compare_trace<C: Case>(answers: [Answer; 4], tally: &mut Tally) -> io::Result<()> {
    let given = Given::new(answers)?;
    let expected = C::expected(&given)?;
    let mut trace = Vec::new();
    if let Some(drawn) = performed::<C>(answers, Operation::Draws(0))? {
        trace.push(Seen {
            answer: drawn.answer,
            draws: drawn.draws,
        });
        if let Some(after) = drawn.after {
            for seen in &after[..7] {
                trace.push(*seen);
            }
        }
    }
    if tally.add(expected.as_slice().get(..8) == Some(trace.as_slice())) {
        let name = C::name();
        let source = C::source();
        println!("{name} over {source}: {answers:?}: draws: wanted {expected:?}, got {trace:?}");
    }
    Ok(())
}

// Each call that stops at item number j comes to what draws up to that item come to.
fn compare_stops<C: Case>(answers: [Answer; 4], j: u32, tally: &mut Tally) -> io::Result<()> {
    let calls = [
        Operation::Borrowing(Borrowing::TryFold, j),
        Operation::Borrowing(Borrowing::Nth, j),
        Operation::Borrowing(Borrowing::Find, j),
        Operation::Borrowing(Borrowing::FindMap, j),
        Operation::Borrowing(Borrowing::All, j),
        Operation::Borrowing(Borrowing::Any, j),
        Operation::Taking(Taking::Fold, j),
        Operation::Taking(Taking::ForEach, j),
        Operation::Position(j),
        Operation::FromBack(FromBack::Draws, j),
        Operation::FromBack(FromBack::TryRfold, j),
        Operation::FromBack(FromBack::Rfold, j),
    ];
    if let Some(drawn) = performed::<C>(answers, Operation::Draws(j))? {
        for operation in calls {
            compare::<C>(answers, operation, drawn, tally)?;
        }
    }
    Ok(())
}

// Each call that goes to the end comes to what draws up to the end come to.
fn compare_drains<C: Case>(answers: [Answer; 4], tally: &mut Tally) -> io::Result<()> {
    let calls = [
        Operation::Taking(Taking::Last, 0),
        Operation::Taking(Taking::Collect, 0),
        Operation::Count,
    ];
    if let Some(drawn) = performed::<C>(answers, Operation::Draws(u32::MAX))? {
        for operation in calls {
            compare::<C>(answers, operation, drawn, tally)?;
        }
    }
    Ok(())
}

// The operation, where it is for the nest, comes to what it must, by what came of draws.
fn compare<C: Case>(
    answers: [Answer; 4],
    operation: Operation,
    drawn: Outcome,
    tally: &mut Tally,
) -> io::Result<()> {
    let Some(outcome) = performed::<C>(answers, operation)? else {
        return Ok(());
    };
    let expected = wanted(operation, drawn);
    if tally.add(outcome == expected) {
        let name = C::name();
        let source = C::source();
        println!(
            "{name} over {source}: {answers:?}: {operation:?}: wanted {expected:?}, got {outcome:?}"
        );
    }
    Ok(())
}
