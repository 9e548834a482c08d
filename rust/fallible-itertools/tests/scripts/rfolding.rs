//! Does an operation with any nest that has two ends, from the back.

use crate::AllocError;
use crate::answer::{Answer, Coded, Failed, Seen};
use crate::case::Run;
use crate::operating::{operate, stopped, taking};
use crate::operation::{FromBack, Operation, Outcome, Passed};
use fallible_iterator::{DoubleEndedFallibleIterator, FallibleIterator};
use std::cell::Cell;

/// Does the operation of the run with the nest from the back: the calls from the back with the nest itself, and the others with its `rev`.
pub fn operate_back<I>(run: &Run<'_>, mut it: I) -> Result<Option<Outcome>, AllocError>
where
    I: DoubleEndedFallibleIterator<Error = Failed>,
    I::Item: Coded,
{
    match run.operation {
        Operation::FromBack(FromBack::Draws, j) => {
            let decided = drawn_back(&mut it, j);
            Ok(Some(and_after_back(run, &mut it, decided)))
        }
        Operation::FromBack(FromBack::TryRfold, j) => {
            let decided = try_rfolded(&mut it, j);
            Ok(Some(and_after_back(run, &mut it, decided)))
        }
        Operation::FromBack(FromBack::Rfold, j) => Ok(Some(taking(run, rfolded(it, j)))),
        _ => operate(run, it.rev()),
    }
}

/// What decided, and the next eight answers from the back.
#[inline(never)]
pub fn and_after_back<I>(run: &Run<'_>, it: &mut I, decided: (Passed, Answer)) -> Outcome
where
    I: DoubleEndedFallibleIterator<Error = Failed>,
    I::Item: Coded,
{
    let (passed, answer) = decided;
    let draws = run.draws.get();
    Outcome {
        passed,
        answer,
        draws,
        after: Some(last_answers(it, run.draws)),
    }
}

// One answer from the back.
#[inline(never)]
fn last_answer<I>(it: &mut I, draws: &Cell<u32>) -> Seen
where
    I: DoubleEndedFallibleIterator<Error = Failed>,
    I::Item: Coded,
{
    let answer = Answer::of(it.draw_back());
    Seen {
        answer,
        draws: draws.get(),
    }
}

// Eight answers from the back.
#[inline(never)]
fn last_answers<I>(it: &mut I, draws: &Cell<u32>) -> [Seen; 8]
where
    I: DoubleEndedFallibleIterator<Error = Failed>,
    I::Item: Coded,
{
    [
        last_answer(it, draws),
        last_answer(it, draws),
        last_answer(it, draws),
        last_answer(it, draws),
        last_answer(it, draws),
        last_answer(it, draws),
        last_answer(it, draws),
        last_answer(it, draws),
    ]
}

/// Draws from the back until item number j, a failure or an end.
#[inline(never)]
pub fn drawn_back<I>(it: &mut I, j: u32) -> (Passed, Answer)
where
    I: DoubleEndedFallibleIterator<Error = Failed>,
    I::Item: Coded,
{
    let mut passed = Passed::none();
    for _ in 0..j {
        match Answer::of(it.draw_back()) {
            Answer::Item(x) => passed = passed.and(x),
            decided => return (passed, decided),
        }
    }
    (passed, Answer::of(it.draw_back()))
}

/// `try_rfold` that fails with 7 on item number j.
#[inline(never)]
pub fn try_rfolded<I>(it: &mut I, j: u32) -> (Passed, Answer)
where
    I: DoubleEndedFallibleIterator<Error = Failed>,
    I::Item: Coded,
{
    let mut passed = Passed::none();
    let mut reached = 0;
    let folded: Result<u32, Failed> = it.try_rfold(0, |number: u32, x: I::Item| {
        if number == j {
            reached = x.code();
            return Err(Failed(7));
        }
        passed = passed.and(x.code());
        Ok(number.wrapping_add(1))
    });
    (passed, stopped(folded, reached))
}

// `rfold` that fails with 7 on item number j.
#[inline(never)]
fn rfolded<I>(it: I, j: u32) -> (Passed, Answer)
where
    I: DoubleEndedFallibleIterator<Error = Failed>,
    I::Item: Coded,
{
    let mut passed = Passed::none();
    let mut reached = 0;
    let folded = it.rfold(0, |number: u32, x: I::Item| {
        if number == j {
            reached = x.code();
            return Err(Failed(7));
        }
        passed = passed.and(x.code());
        Ok(number.wrapping_add(1))
    });
    (passed, stopped(folded, reached))
}
