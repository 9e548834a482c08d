//! Comparisons of two borrowed scripts.
use crate::AllocError;
use crate::answer::{Answer, Failed, Seen};
use crate::driving::Tally;
use crate::lists::{list_at, whole};
use crate::script::Script;
use fallible_iterator::FallibleIterator;
use std::cell::Cell;
use std::cmp::Ordering;
use std::io;

// A comparison.
#[derive(Clone, Copy, Debug)]
enum Comparison {
    Cmp,
    PartialCmp,
    Eq,
    Ne,
    Lt,
    Le,
    Gt,
    Ge,
}

// What came of a comparison, and how many answers each side had given by then.
#[derive(Clone, Copy, PartialEq, Eq, Debug)]
struct Compared {
    answer: Answer,
    left: u32,
    right: u32,
}

// How many lists have at most three answers.
const SHORT_LISTS: u32 = 85;

/// Makes each comparison of every two scripts of at most three answers, prints the first mismatch of each comparison and then the tally, and adds this to the total.
pub fn drive_comparisons(total: &mut Tally) -> io::Result<()> {
    let mut tally = Tally::none();
    let comparisons = [
        Comparison::Cmp,
        Comparison::PartialCmp,
        Comparison::Eq,
        Comparison::Ne,
        Comparison::Lt,
        Comparison::Le,
        Comparison::Gt,
        Comparison::Ge,
    ];
    for comparison in comparisons {
        let mut of_comparison = Tally::none();
        for left in 0..SHORT_LISTS {
            for right in 0..SHORT_LISTS {
                drive_two(
                    comparison,
                    list_at(left),
                    list_at(right),
                    &mut of_comparison,
                )?;
            }
        }
        tally.add_all(of_comparison);
    }
    let cases = tally.cases;
    let mismatches = tally.mismatches;
    println!("comparisons of two scripts: {cases} cases, {mismatches} mismatches");
    total.add_all(tally);
    Ok(())
}

// Makes the comparison of these two.
fn drive_two(
    comparison: Comparison,
    left: [Answer; 4],
    right: [Answer; 4],
    tally: &mut Tally,
) -> io::Result<()> {
    let all_left = whole(left)?;
    let all_right = whole(right)?;
    let wanted = wanted(comparison, all_left.as_slice(), all_right.as_slice());
    let (of_left, of_right) = (Cell::new(0), Cell::new(0));
    let answer = compare(
        comparison,
        &mut Script::new(left, &of_left),
        &mut Script::new(right, &of_right),
    );
    let got = Compared {
        answer,
        left: of_left.get(),
        right: of_right.get(),
    };
    if tally.add(got == wanted) {
        println!("{left:?} and {right:?}: {comparison:?}: wanted {wanted:?}, got {got:?}");
    }
    Ok(())
}

// Makes the comparison.
fn compare(comparison: Comparison, left: &mut Script<'_>, right: &mut Script<'_>) -> Answer {
    match comparison {
        Comparison::Cmp => told(left.by_ref().cmp(right.by_ref())),
        Comparison::PartialCmp => match left.by_ref().partial_cmp(right.by_ref()) {
            Ok(Some(ordering)) => told(Ok(ordering)),
            Ok(None) => Answer::End,
            Err(e) => told(Err(e)),
        },
        Comparison::Eq => truth(left.by_ref().eq(right.by_ref())),
        Comparison::Ne => truth(left.by_ref().ne(right.by_ref())),
        Comparison::Lt => truth(left.by_ref().lt(right.by_ref())),
        Comparison::Le => truth(left.by_ref().le(right.by_ref())),
        Comparison::Gt => truth(left.by_ref().gt(right.by_ref())),
        Comparison::Ge => truth(left.by_ref().ge(right.by_ref())),
    }
}

// An ordering as a number, or the failure.
fn told(answer: Result<Ordering, Failed>) -> Answer {
    match answer {
        Ok(Ordering::Less) => Answer::Item(0),
        Ok(Ordering::Equal) => Answer::Item(1),
        Ok(Ordering::Greater) => Answer::Item(2),
        Err(e) => Answer::Failure(e.0),
    }
}

// 1 of true and 0 of false, or the failure.
fn truth(answer: Result<bool, Failed>) -> Answer {
    match answer {
        Ok(true) => Answer::Item(1),
        Ok(false) => Answer::Item(0),
        Err(e) => Answer::Failure(e.0),
    }
}

// What the comparison must come to, by the whole lists: the first place at which they do not have equal items decides. A failure of the left there hides the right.
fn wanted(comparison: Comparison, left: &[Seen], right: &[Seen]) -> Compared {
    for (a, b) in left.iter().zip(right.iter()) {
        let (left, right) = (a.draws, b.draws);
        let answer = match (a.answer, b.answer) {
            (Answer::Failure(e), _) => {
                return Compared {
                    answer: Answer::Failure(e),
                    left,
                    right: right.wrapping_sub(1),
                };
            }
            (_, Answer::Failure(e)) => Answer::Failure(e),
            (Answer::End, Answer::End) => read(comparison, Ordering::Equal),
            (Answer::End, Answer::Item(_)) => read(comparison, Ordering::Less),
            (Answer::Item(_), Answer::End) => read(comparison, Ordering::Greater),
            (Answer::Item(1), Answer::Item(2)) => read(comparison, Ordering::Less),
            (Answer::Item(2), Answer::Item(1)) => read(comparison, Ordering::Greater),
            _ => continue,
        };
        return Compared {
            answer,
            left,
            right,
        };
    }
    Compared {
        answer: Answer::End,
        left: 0,
        right: 0,
    }
}

// What the comparison says where the two are ordered so.
fn read(comparison: Comparison, ordering: Ordering) -> Answer {
    let is_true = match comparison {
        Comparison::Cmp | Comparison::PartialCmp => return told(Ok(ordering)),
        Comparison::Eq => ordering == Ordering::Equal,
        Comparison::Ne => ordering != Ordering::Equal,
        Comparison::Lt => ordering == Ordering::Less,
        Comparison::Le => ordering != Ordering::Greater,
        Comparison::Gt => ordering == Ordering::Greater,
        Comparison::Ge => ordering != Ordering::Less,
    };
    truth(Ok(is_true))
}
