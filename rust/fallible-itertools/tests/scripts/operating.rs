//! Does an operation with any nest.

use crate::AllocError;
use crate::answer::{Answer, Coded, Failed, Seen};
use crate::case::Run;
use crate::operation::{Borrowing, Operation, Outcome, Passed, Taking};
use fallible_iterator::{FallibleIterator, Fault};
use std::cell::Cell;

/// Does the operation of the run with the nest, and draws eight more answers where it leaves it.
pub fn operate<I>(run: &Run<'_>, mut it: I) -> Result<Option<Outcome>, AllocError>
where
    I: FallibleIterator<Error = Failed>,
    I::Item: Coded,
{
    match run.operation {
        Operation::Position(j) => {
            let decided = placed(&mut it, j);
            Ok(Some(and_after(run, &mut it, decided)))
        }
        Operation::Count => {
            let answer = Answer::of_number(it.count());
            Ok(Some(taking(run, (Passed::none(), answer))))
        }
        _ => operate_without_numbers(run, it),
    }
}

/// The same of a nest whose number of items may not fit a `usize`: none where the operation requires that it does.
pub fn operate_without_numbers<I>(run: &Run<'_>, mut it: I) -> Result<Option<Outcome>, AllocError>
where
    I: FallibleIterator<Error = Failed>,
    I::Item: Coded,
{
    match run.operation {
        Operation::Draws(j) => {
            let decided = drawn(&mut it, j);
            Ok(Some(and_after(run, &mut it, decided)))
        }
        Operation::Borrowing(call, j) => {
            let decided = borrowed(&mut it, call, j);
            Ok(Some(and_after(run, &mut it, decided)))
        }
        Operation::Taking(call, j) => {
            let decided = taken(it, call, j)?;
            Ok(Some(taking(run, decided)))
        }
        Operation::Position(_) | Operation::Count | Operation::FromBack(_, _) => Ok(None),
    }
}

/// What decided, and the next eight answers.
#[inline(never)]
pub fn and_after<I>(run: &Run<'_>, it: &mut I, decided: (Passed, Answer)) -> Outcome
where
    I: FallibleIterator<Error = Failed>,
    I::Item: Coded,
{
    let (passed, answer) = decided;
    let draws = run.draws.get();
    Outcome {
        passed,
        answer,
        draws,
        after: Some(next_answers(it, run.draws)),
    }
}

/// What decided, where the nest was taken.
pub fn taking(run: &Run<'_>, decided: (Passed, Answer)) -> Outcome {
    let (passed, answer) = decided;
    Outcome {
        passed,
        answer,
        draws: run.draws.get(),
        after: None,
    }
}

// One answer.
#[inline(never)]
fn next_answer<I>(it: &mut I, draws: &Cell<u32>) -> Seen
where
    I: FallibleIterator<Error = Failed>,
    I::Item: Coded,
{
    let answer = Answer::of(it.draw());
    Seen {
        answer,
        draws: draws.get(),
    }
}

/// Eight answers.
#[inline(never)]
pub fn next_answers<I>(it: &mut I, draws: &Cell<u32>) -> [Seen; 8]
where
    I: FallibleIterator<Error = Failed>,
    I::Item: Coded,
{
    [
        next_answer(it, draws),
        next_answer(it, draws),
        next_answer(it, draws),
        next_answer(it, draws),
        next_answer(it, draws),
        next_answer(it, draws),
        next_answer(it, draws),
        next_answer(it, draws),
    ]
}

/// Draws until item number j, a failure or an end.
#[inline(never)]
pub fn drawn<I>(it: &mut I, j: u32) -> (Passed, Answer)
where
    I: FallibleIterator<Error = Failed>,
    I::Item: Coded,
{
    let mut passed = Passed::none();
    for _ in 0..j {
        match Answer::of(it.draw()) {
            Answer::Item(x) => passed = passed.and(x),
            decided => return (passed, decided),
        }
    }
    (passed, Answer::of(it.draw()))
}

// Does a call that leaves the nest.
fn borrowed<I>(it: &mut I, call: Borrowing, j: u32) -> (Passed, Answer)
where
    I: FallibleIterator<Error = Failed>,
    I::Item: Coded,
{
    match call {
        Borrowing::TryFold => try_folded(it, j),
        Borrowing::Nth => (Passed::none(), Answer::of(it.nth(j as usize))),
        Borrowing::Find => found(it, j),
        Borrowing::FindMap => found_mapped(it, j),
        Borrowing::All => all_before(it, j),
        Borrowing::Any => any_at(it, j),
    }
}

/// `try_fold` that fails with 7 on item number j.
#[inline(never)]
pub fn try_folded<I>(it: &mut I, j: u32) -> (Passed, Answer)
where
    I: FallibleIterator<Error = Failed>,
    I::Item: Coded,
{
    let mut passed = Passed::none();
    let mut reached = 0;
    let folded: Result<u32, Failed> = it.try_fold(0, |number: u32, x: I::Item| {
        if number == j {
            reached = x.code();
            return Err(Failed(7));
        }
        passed = passed.and(x.code());
        Ok(number.wrapping_add(1))
    });
    (passed, stopped(folded, reached))
}

/// What a fold that fails with 7 at an item came to.
pub fn stopped(folded: Result<u32, Failed>, reached: u32) -> Answer {
    match folded {
        Ok(_) => Answer::End,
        Err(Failed(7)) => Answer::Item(reached),
        Err(e) => Answer::Failure(e.0),
    }
}

/// `find` that is true on item number j.
#[inline(never)]
pub fn found<I>(it: &mut I, j: u32) -> (Passed, Answer)
where
    I: FallibleIterator<Error = Failed>,
    I::Item: Coded,
{
    let mut passed = Passed::none();
    let found = it.find(|x: &I::Item| {
        if passed.number == j {
            return Ok(true);
        }
        passed = passed.and(x.code());
        Ok(false)
    });
    (passed, Answer::of(found))
}

// `find_map` that returns the code of item number j.
#[inline(never)]
fn found_mapped<I>(it: &mut I, j: u32) -> (Passed, Answer)
where
    I: FallibleIterator<Error = Failed>,
    I::Item: Coded,
{
    let mut passed = Passed::none();
    let found: Result<Option<u32>, Failed> = it.find_map(|x: I::Item| {
        if passed.number == j {
            return Ok(Some(x.code()));
        }
        passed = passed.and(x.code());
        Ok(None)
    });
    (passed, Answer::of(found))
}

// `position` that is true on item number j.
#[inline(never)]
fn placed<I>(it: &mut I, j: u32) -> (Passed, Answer)
where
    I: FallibleIterator<Error = Failed>,
    I::Item: Coded,
{
    let mut passed = Passed::none();
    let placed = it.position(|x: I::Item| {
        if passed.number == j {
            return Ok(true);
        }
        passed = passed.and(x.code());
        Ok(false)
    });
    let answer = match placed {
        Ok(None) => Answer::End,
        Ok(Some(place)) => Answer::of_number(Ok(place)),
        Err(e) => Answer::of_number(Err(e)),
    };
    (passed, answer)
}

// `all` that is false on item number j.
#[inline(never)]
fn all_before<I>(it: &mut I, j: u32) -> (Passed, Answer)
where
    I: FallibleIterator<Error = Failed>,
    I::Item: Coded,
{
    let mut passed = Passed::none();
    let all = it.all(|x: I::Item| {
        if passed.number == j {
            return Ok(false);
        }
        passed = passed.and(x.code());
        Ok(true)
    });
    (passed, truth(all))
}

// `any` that is true on item number j.
#[inline(never)]
fn any_at<I>(it: &mut I, j: u32) -> (Passed, Answer)
where
    I: FallibleIterator<Error = Failed>,
    I::Item: Coded,
{
    let mut passed = Passed::none();
    let any = it.any(|x: I::Item| {
        if passed.number == j {
            return Ok(true);
        }
        passed = passed.and(x.code());
        Ok(false)
    });
    (passed, truth(any))
}

// 1 of true and 0 of false, or the failure.
fn truth(answer: Result<bool, Failed>) -> Answer {
    match answer {
        Ok(true) => Answer::Item(1),
        Ok(false) => Answer::Item(0),
        Err(e) => Answer::Failure(e.0),
    }
}

// Does a call that takes the nest.
fn taken<I>(it: I, call: Taking, j: u32) -> Result<(Passed, Answer), AllocError>
where
    I: FallibleIterator<Error = Failed>,
    I::Item: Coded,
{
    match call {
        Taking::Fold => Ok(folded(it, j)),
        Taking::ForEach => Ok(each_called(it, j)),
        Taking::Last => Ok((Passed::none(), Answer::of(it.last()))),
        Taking::Collect => collected(it),
    }
}

// `fold` that fails with 7 on item number j.
#[inline(never)]
fn folded<I>(it: I, j: u32) -> (Passed, Answer)
where
    I: FallibleIterator<Error = Failed>,
    I::Item: Coded,
{
    let mut passed = Passed::none();
    let mut reached = 0;
    let folded = it.fold(0, |number: u32, x: I::Item| {
        if number == j {
            reached = x.code();
            return Err(Failed(7));
        }
        passed = passed.and(x.code());
        Ok(number.wrapping_add(1))
    });
    (passed, stopped(folded, reached))
}

// `for_each` that fails with 7 on item number j.
#[inline(never)]
fn each_called<I>(it: I, j: u32) -> (Passed, Answer)
where
    I: FallibleIterator<Error = Failed>,
    I::Item: Coded,
{
    let mut passed = Passed::none();
    let mut reached = 0;
    let done = it.for_each(|x: I::Item| {
        if passed.number == j {
            reached = x.code();
            return Err(Failed(7));
        }
        passed = passed.and(x.code());
        Ok(())
    });
    let answer = match done {
        Ok(()) => stopped(Ok(0), reached),
        Err(e) => stopped(Err(e), reached),
    };
    (passed, answer)
}

// `collect` into a `Vec`.
#[inline(never)]
fn collected<I>(it: I) -> Result<(Passed, Answer), AllocError>
where
    I: FallibleIterator<Error = Failed>,
    I::Item: Coded,
{
    let made: Result<Vec<I::Item>, Failed> = it.collect();
    match made {
        Ok(items) => {
            let mut passed = Passed::none();
            for x in &items {
                passed = passed.and(x.code());
            }
            Ok((passed, Answer::End))
        }
        Err(e) => Ok((Passed::none(), Answer::Failure(e.0))),
    }
}
