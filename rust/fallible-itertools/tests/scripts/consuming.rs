//! Calls that take a borrowed script.
use crate::AllocError;
use crate::answer::{Answer, Failed, append_digit};
use crate::case::Given;
use crate::driving::Tally;
use crate::lists::{LISTS, list_at};
use crate::peeking::fold_by_calls;
use crate::rules::fold_ahead;
use crate::script::Script;
use fallible_iterator::{FallibleIterator, Fault};
use std::cell::Cell;
use std::cmp::Ordering;
use std::io;

// A call that takes a script.
#[derive(Clone, Copy, Debug)]
enum Consumer {
    Max,
    Min,
    // by a closure that finds all items equal
    MaxBy,
    MinBy,
    // by keys that are all equal
    MaxByKey,
    MinByKey,
    // into those that are 1 and the others
    Partition,
    // of pairs of an item and ten more
    Unzip,
    // `fold_if` by closures that go by their calls
    FoldIf,
}

// What came of a call, and how many answers the script had given by then.
#[derive(Clone, Copy, PartialEq, Eq, Debug)]
struct Consumed {
    answer: Answer,
    draws: u32,
}

/// Makes each call over every script, prints the first mismatch of each call and then the tally, and adds this to the total.
pub fn drive_consumers(total: &mut Tally) -> io::Result<()> {
    let mut tally = Tally::none();
    let consumers = [
        Consumer::Max,
        Consumer::Min,
        Consumer::MaxBy,
        Consumer::MinBy,
        Consumer::MaxByKey,
        Consumer::MinByKey,
        Consumer::Partition,
        Consumer::Unzip,
        Consumer::FoldIf,
    ];
    for consumer in consumers {
        let mut of_call = Tally::none();
        for number in 0..LISTS {
            let answers = list_at(number);
            let given = Given::new(answers)?;
            let draws = Cell::new(0);
            let answer = consume(consumer, Script::new(answers, &draws))?;
            let got = Consumed {
                answer,
                draws: draws.get(),
            };
            let wanted = wanted(consumer, &given);
            if of_call.add(got == wanted) {
                println!("a script: {answers:?}: {consumer:?}: wanted {wanted:?}, got {got:?}");
            }
        }
        tally.add_all(of_call);
    }
    let cases = tally.cases;
    let mismatches = tally.mismatches;
    println!("calls that take a script: {cases} cases, {mismatches} mismatches");
    total.add_all(tally);
    Ok(())
}

// Makes the call.
fn consume(consumer: Consumer, mut script: Script<'_>) -> Result<Answer, AllocError> {
    match consumer {
        Consumer::Max => Ok(Answer::of((&mut script).max())),
        Consumer::Min => Ok(Answer::of((&mut script).min())),
        Consumer::MaxBy => Ok(Answer::of(
            (&mut script).max_by(|_: &u32, _: &u32| Ok(Ordering::Equal)),
        )),
        Consumer::MinBy => Ok(Answer::of(
            (&mut script).min_by(|_: &u32, _: &u32| Ok(Ordering::Equal)),
        )),
        Consumer::MaxByKey => Ok(Answer::of((&mut script).max_by_key(|_: &u32| Ok(0u32)))),
        Consumer::MinByKey => Ok(Answer::of((&mut script).min_by_key(|_: &u32| Ok(0u32)))),
        Consumer::Partition => both_read((&mut script).partition(|x: &u32| Ok(*x == 1))),
        Consumer::Unzip => both_read(
            (&mut script)
                .map(|x: u32| Ok((x, x.wrapping_add(10))))
                .unzip(),
        ),
        Consumer::FoldIf => Ok(match fold_by_calls(&mut (&mut script).peekable()) {
            Ok(read) => Answer::Item(read),
            Err(e) => Answer::Failure(e.0),
        }),
    }
}

// Two collections as one number, or the failure.
fn both_read(made: Result<(Vec<u32>, Vec<u32>), Failed>) -> Result<Answer, AllocError> {
    match made {
        Ok((first, second)) => {
            let mut read: u32 = 0;
            for x in &first {
                read = append_digit(read, *x);
            }
            read = append_digit(read, 77);
            for x in &second {
                read = append_digit(read, *x);
            }
            Ok(Answer::Item(read))
        }
        Err(e) => Ok(Answer::Failure(e.0)),
    }
}

// What the call must come to, by the whole list: the first failure or the first end decides, and nothing is drawn after it.
fn wanted(consumer: Consumer, given: &Given) -> Consumed {
    if let Consumer::FoldIf = consumer {
        let (answer, draws, _) = fold_ahead(given.all.as_slice());
        return Consumed { answer, draws };
    }
    let mut greatest: u32 = 0;
    let mut least: u32 = 3;
    let mut last: u32 = 0;
    let mut draws: u32 = 0;
    for seen in &given.all {
        draws = seen.draws;
        match seen.answer {
            Answer::Item(x) => {
                greatest = greatest.max(x);
                least = least.min(x);
                last = x;
            }
            Answer::Failure(e) => {
                return Consumed {
                    answer: Answer::Failure(e),
                    draws,
                };
            }
            Answer::End => break,
        }
    }
    let answer = match consumer {
        Consumer::Partition => both_wanted(given, |x: u32| x == 1, |x: u32| x != 1, 0),
        Consumer::Unzip => both_wanted(given, |_: u32| true, |_: u32| true, 10),
        _ if last == 0 => Answer::End,
        Consumer::Max => Answer::Item(greatest),
        Consumer::Min => Answer::Item(least),
        _ => Answer::Item(last),
    };
    Consumed { answer, draws }
}

// The items before the first end that go to the first side, and then those that go to the second, so many more each.
fn both_wanted<F: Fn(u32) -> bool, G: Fn(u32) -> bool>(
    given: &Given,
    is_first: F,
    is_second: G,
    more: u32,
) -> Answer {
    let mut read: u32 = 0;
    for answer in given.answers {
        if let Answer::Item(x) = answer {
            if is_first(x) {
                read = append_digit(read, x);
            }
        } else {
            break;
        }
    }
    read = append_digit(read, 77);
    for answer in given.answers {
        if let Answer::Item(x) = answer {
            if is_second(x) {
                read = append_digit(read, x.wrapping_add(more));
            }
        } else {
            break;
        }
    }
    Answer::Item(read)
}
