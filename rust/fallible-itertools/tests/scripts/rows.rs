//! A row by hand.
use crate::AllocError;
use crate::answer::{Answer, Failed};
use crate::driving::Tally;
use crate::operating::next_answers;
use crate::script::Script;
use fallible_iterator::FallibleIterator;
use std::cell::Cell;
use std::io;

/// Compares the row, prints a mismatch and then the tally, and adds this to the total.
pub fn drive_rows(total: &mut Tally) -> io::Result<()> {
    let draws = Cell::new(0);
    let got = summed_and_drawn(&draws);
    let wanted = [
        Answer::Failure(9),
        Answer::Item(2),
        Answer::Item(5),
        Answer::Failure(9),
        Answer::Item(6),
        Answer::End,
    ];
    let mut tally = Tally::none();
    if tally.add(got == wanted) {
        println!("flat_map of 1 and 5: wanted {wanted:?}, got {got:?}");
    }
    let cases = tally.cases;
    let mismatches = tally.mismatches;
    println!("rows by hand: {cases} cases, {mismatches} mismatches");
    total.add_all(tally);
    Ok(())
}

// The sum of a `flat_map` of 1 and 5, each to itself, a failure and one more, and then five draws.
fn summed_and_drawn(draws: &Cell<u32>) -> [Answer; 6] {
    let outer = [Answer::Item(1), Answer::Item(5), Answer::End, Answer::End];
    let mut outer = Script::new(outer, draws);
    let mut nest = (&mut outer).flat_map(|x: u32| {
        let inner = [
            Answer::Item(x),
            Answer::Failure(9),
            Answer::Item(x.wrapping_add(1)),
            Answer::End,
        ];
        Ok(Script::new(inner, draws))
    });
    let sum: Result<u32, Failed> = nest.try_fold(0, |sum: u32, x: u32| Ok(sum.wrapping_add(x)));
    let summed = match sum {
        Ok(all) => Answer::Item(all),
        Err(e) => Answer::Failure(e.0),
    };
    let next = next_answers(&mut nest, draws);
    [
        summed,
        next[0].answer,
        next[1].answer,
        next[2].answer,
        next[3].answer,
        next[4].answer,
    ]
}
