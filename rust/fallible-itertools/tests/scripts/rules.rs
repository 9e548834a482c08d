//! Rules over the whole list of a source's answers. None of them draws anything.

use crate::AllocError;
use crate::answer::{Answer, Seen, append_digit, pair_code};
use crate::lists::whole;

/// The list, each answer replaced by what the rule says of it, or left out. The rule is called in order.
pub fn each<F: FnMut(Answer) -> Option<Answer>>(
    source: &[Seen],
    mut rule: F,
) -> Result<Vec<Seen>, AllocError> {
    let mut made = Vec::new();
    for seen in source {
        if let Some(answer) = rule(seen.answer) {
            made.push(Seen {
                answer,
                draws: seen.draws,
            });
        }
    }
    Ok(made)
}

/// The list up to the first answer of which the rule says that it is the last, each answer replaced by what the rule says of it; and then ends without draws.
pub fn cut<F: FnMut(Answer) -> (Answer, bool)>(
    source: &[Seen],
    mut rule: F,
) -> Result<Vec<Seen>, AllocError> {
    let mut made = Vec::new();
    for seen in source {
        let draws = seen.draws;
        let (answer, is_last) = rule(seen.answer);
        made.push(Seen { answer, draws });
        if is_last {
            add_ends(&mut made, draws)?;
            break;
        }
    }
    Ok(made)
}

/// Adds ends without draws.
pub fn add_ends(made: &mut Vec<Seen>, draws: u32) -> Result<(), AllocError> {
    for _ in 0..40 {
        made.push(Seen {
            answer: Answer::End,
            draws,
        });
    }
    Ok(())
}

/// The list up to its item number n, and then ends without draws; n is at least 1.
pub fn taken(source: &[Seen], n: u32) -> Result<Vec<Seen>, AllocError> {
    let mut items: u32 = 0;
    cut(source, |answer: Answer| {
        if let Answer::Item(_) = answer {
            items = items.wrapping_add(1);
            (answer, items == n)
        } else {
            (answer, false)
        }
    })
}

/// The list up to its first end, and then ends without draws.
pub fn fused(source: &[Seen]) -> Result<Vec<Seen>, AllocError> {
    cut(source, |answer: Answer| (answer, answer == Answer::End))
}

/// The front up to its first end, which is left out, and then the back, drawn from there on.
pub fn chained(first: &[Seen], second: &[Seen]) -> Result<Vec<Seen>, AllocError> {
    chained_after(first, second, 0)
}

/// The same where the back drew so many answers at its making.
pub fn chained_after(first: &[Seen], second: &[Seen], made: u32) -> Result<Vec<Seen>, AllocError> {
    let mut chained = Vec::new();
    let mut front_draws = 0;
    for seen in first {
        front_draws = seen.draws;
        if seen.answer == Answer::End {
            break;
        }
        chained.push(Seen {
            answer: seen.answer,
            draws: made.wrapping_add(seen.draws),
        });
    }
    for seen in second {
        chained.push(Seen {
            answer: seen.answer,
            draws: front_draws.wrapping_add(seen.draws),
        });
    }
    Ok(chained)
}

/// One answer for each of the left: its failure; otherwise that of the right beside it, which is the next one; otherwise a pair, or an end.
pub fn zipped(left: &[Seen], right: &[Seen]) -> Result<Vec<Seen>, AllocError> {
    let mut made = Vec::new();
    let mut rights = right.iter();
    let mut right_draws = 0;
    for seen in left {
        let answer = if let Answer::Failure(e) = seen.answer {
            Answer::Failure(e)
        } else if let Some(beside) = rights.next() {
            right_draws = beside.draws;
            paired(seen.answer, beside.answer)
        } else {
            Answer::End
        };
        made.push(Seen {
            answer,
            draws: seen.draws.wrapping_add(right_draws),
        });
    }
    Ok(made)
}

// What a left answer that is no failure and the right one beside it make.
fn paired(left: Answer, right: Answer) -> Answer {
    match (left, right) {
        (_, Answer::Failure(e)) => Answer::Failure(e),
        (Answer::Item(x), Answer::Item(y)) => Answer::Item(pair_code(x, y)),
        _ => Answer::End,
    }
}

/// The list, each item replaced by the answers of its inner list up to the first end, which is drawn and left out.
pub fn joined<F: Fn(u32) -> [Answer; 4]>(
    source: &[Seen],
    inner: F,
) -> Result<Vec<Seen>, AllocError> {
    let mut made = Vec::new();
    let mut inner_draws: u32 = 0;
    for seen in source {
        if let Answer::Item(x) = seen.answer {
            let before = seen.draws.wrapping_add(inner_draws);
            for given in &whole(inner(x))? {
                inner_draws = inner_draws.wrapping_add(1);
                if given.answer == Answer::End {
                    break;
                }
                made.push(Seen {
                    answer: given.answer,
                    draws: before.wrapping_add(given.draws),
                });
            }
        } else {
            made.push(Seen {
                answer: seen.answer,
                draws: seen.draws.wrapping_add(inner_draws),
            });
        }
    }
    Ok(made)
}

/// The answers before the first end; and then laps, each the first answer, whatever it is, and the answers after it up to an end. The end that closes a lap is drawn and left out. The source drew so many answers at its making, and a clone of it draws none of those again.
pub fn cycled(source: &[Seen], made: u32) -> Result<Vec<Seen>, AllocError> {
    let mut laps = Vec::new();
    let mut before: u32 = 0;
    for lap in 0..20 {
        let mut is_first = 0 < lap;
        for seen in source {
            let draws = before.wrapping_add(seen.draws);
            if seen.answer == Answer::End && !is_first {
                before = draws.wrapping_sub(made);
                break;
            }
            is_first = false;
            laps.push(Seen {
                answer: seen.answer,
                draws,
            });
        }
    }
    Ok(laps)
}

/// What a closure that is told how often it was called says of an item: a failure, 8 more than the item, where that is a multiple of 3, and otherwise whether it is odd.
pub fn by_calls(calls: u32, x: u32) -> Result<bool, u32> {
    if calls % 3 == 0 {
        Err(x.wrapping_add(8))
    } else {
        Ok(calls % 2 == 1)
    }
}

/// What a test that is told how often it was called says of an item, by then: that it takes the first, of the second a 1, of the third a 2, at which it fails on a 1, and no fourth one.
pub fn accepts(calls: u32, x: u32) -> Result<bool, u32> {
    match calls {
        1 => Ok(true),
        2 => Ok(x == 1),
        3 if x == 1 => Err(30),
        3 => Ok(true),
        _ => Ok(false),
    }
}

/// One more item after those that a number stands for; a failure after two items that are 1.
pub fn folds(read: u32, x: u32) -> Result<u32, u32> {
    if read == 102 {
        Err(x.wrapping_add(20))
    } else {
        Ok(append_digit(read, x))
    }
}

/// What a fold of the items that `accepts` takes comes to, how many answers it has seen by then, and how many of them are gone: all but an item that it rejects, and an end.
pub fn fold_ahead(source: &[Seen]) -> (Answer, u32, usize) {
    let mut read: u32 = 0;
    let mut taken: usize = 0;
    let mut calls: u32 = 0;
    for seen in source {
        let stops = match seen.answer {
            Answer::End => return (Answer::Item(read), seen.draws, taken),
            Answer::Failure(e) => Some(e),
            Answer::Item(x) => {
                calls = calls.wrapping_add(1);
                match accepts(calls, x) {
                    Ok(false) => return (Answer::Item(read), seen.draws, taken),
                    Err(e) => Some(e),
                    Ok(true) => match folds(read, x) {
                        Ok(more) => {
                            read = more;
                            None
                        }
                        Err(e) => Some(e),
                    },
                }
            }
        };
        taken = taken.wrapping_add(1);
        if let Some(e) = stops {
            return (Answer::Failure(e), seen.draws, taken);
        }
    }
    (Answer::Item(read), 0, taken)
}

/// The list without its first answer, where that one is lost.
pub fn without_lost_first<F: Fn(Answer) -> bool>(
    source: &[Seen],
    is_lost: F,
) -> Result<Vec<Seen>, AllocError> {
    let mut made = Vec::new();
    let mut is_first = true;
    for seen in source {
        if !is_first || !is_lost(seen.answer) {
            made.push(*seen);
        }
        is_first = false;
    }
    Ok(made)
}

/// The list as it is.
pub fn unchanged(source: &[Seen]) -> Result<Vec<Seen>, AllocError> {
    each(source, |answer: Answer| Some(answer))
}

/// Each item replaced by ten times it and its number, from 1, and each third item by a failure.
pub fn mapped_by_calls(source: &[Seen]) -> Result<Vec<Seen>, AllocError> {
    let mut items: u32 = 0;
    each(source, |answer: Answer| {
        if let Answer::Item(x) = answer {
            items = items.wrapping_add(1);
            if items % 3 == 0 {
                Some(Answer::Failure(8))
            } else {
                Some(Answer::Item(x.wrapping_mul(10).wrapping_add(items)))
            }
        } else {
            Some(answer)
        }
    })
}

/// Each third item replaced by a failure that is 8 more than it.
pub fn inspected_by_calls(source: &[Seen]) -> Result<Vec<Seen>, AllocError> {
    let mut items: u32 = 0;
    each(source, |answer: Answer| {
        if let Answer::Item(x) = answer {
            items = items.wrapping_add(1);
            if items % 3 == 0 {
                Some(Answer::Failure(x.wrapping_add(8)))
            } else {
                Some(answer)
            }
        } else {
            Some(answer)
        }
    })
}

/// Each failure replaced by 100 more and its number, from 1.
pub fn failures_mapped_by_calls(source: &[Seen]) -> Result<Vec<Seen>, AllocError> {
    let mut failures: u32 = 0;
    each(source, |answer: Answer| {
        if let Answer::Failure(e) = answer {
            failures = failures.wrapping_add(1);
            Some(Answer::Failure(e.wrapping_add(100).wrapping_add(failures)))
        } else {
            Some(answer)
        }
    })
}

/// Each third item replaced by a failure, and of the others those kept whose number, from 1, is odd.
pub fn filtered_by_calls(source: &[Seen]) -> Result<Vec<Seen>, AllocError> {
    let mut items: u32 = 0;
    each(source, |answer: Answer| {
        if let Answer::Item(x) = answer {
            items = items.wrapping_add(1);
            match by_calls(items, x) {
                Ok(true) => Some(answer),
                Ok(false) => None,
                Err(e) => Some(Answer::Failure(e)),
            }
        } else {
            Some(answer)
        }
    })
}

/// Each third item replaced by a failure, and each other one whose number, from 1, is odd by ten times it and that number; the rest is left out.
pub fn filter_mapped_by_calls(source: &[Seen]) -> Result<Vec<Seen>, AllocError> {
    let mut items: u32 = 0;
    each(source, |answer: Answer| {
        if let Answer::Item(x) = answer {
            items = items.wrapping_add(1);
            match by_calls(items, x) {
                Ok(true) => Some(Answer::Item(x.wrapping_mul(10).wrapping_add(items))),
                Ok(false) => None,
                Err(e) => Some(Answer::Failure(e)),
            }
        } else {
            Some(answer)
        }
    })
}

/// Each third item replaced by a failure, each other one whose number, from 1, is odd by how many come before it, and the rest left out.
pub fn places_by_calls(source: &[Seen]) -> Result<Vec<Seen>, AllocError> {
    let mut items: u32 = 0;
    each(source, |answer: Answer| {
        if let Answer::Item(x) = answer {
            let before = items;
            items = items.wrapping_add(1);
            match by_calls(items, x) {
                Ok(true) => Some(Answer::Item(before)),
                Ok(false) => None,
                Err(e) => Some(Answer::Failure(e)),
            }
        } else {
            Some(answer)
        }
    })
}

/// Each third item replaced by a failure, each other one whose number, from 1, is odd by ten times it and that number, and the rest by ends.
pub fn mapped_while_by_calls(source: &[Seen]) -> Result<Vec<Seen>, AllocError> {
    let mut items: u32 = 0;
    each(source, |answer: Answer| {
        if let Answer::Item(x) = answer {
            items = items.wrapping_add(1);
            match by_calls(items, x) {
                Ok(true) => Some(Answer::Item(x.wrapping_mul(10).wrapping_add(items))),
                Ok(false) => Some(Answer::End),
                Err(e) => Some(Answer::Failure(e)),
            }
        } else {
            Some(answer)
        }
    })
}

/// What item x points to is number x % 8 of these.
pub const POINTED_TO: [u32; 8] = [40, 41, 42, 43, 44, 45, 46, 47];

/// Each item replaced by what it points to.
pub fn pointed_to(source: &[Seen]) -> Result<Vec<Seen>, AllocError> {
    each(source, |answer: Answer| {
        if let Answer::Item(x) = answer {
            Some(Answer::Item(POINTED_TO[(x % 8) as usize]))
        } else {
            Some(answer)
        }
    })
}

/// Each item beside its number, from 0.
pub fn numbered(source: &[Seen]) -> Result<Vec<Seen>, AllocError> {
    let mut items: u32 = 0;
    each(source, |answer: Answer| {
        if let Answer::Item(x) = answer {
            let number = items;
            items = items.wrapping_add(1);
            Some(Answer::Item(pair_code(number, x)))
        } else {
            Some(answer)
        }
    })
}

/// The list without its first n items.
pub fn skipped(source: &[Seen], n: u32) -> Result<Vec<Seen>, AllocError> {
    let mut items: u32 = 0;
    each(source, |answer: Answer| {
        if let Answer::Item(_) = answer {
            items = items.wrapping_add(1);
            if items <= n { None } else { Some(answer) }
        } else {
            Some(answer)
        }
    })
}

/// Of the items those whose number, from 1, is 1 and a multiple of the step, which is at least 2.
pub fn stepped(source: &[Seen], step: u32) -> Result<Vec<Seen>, AllocError> {
    let mut items: u32 = 0;
    each(source, |answer: Answer| {
        if let Answer::Item(_) = answer {
            items = items.wrapping_add(1);
            if items % step == 1 {
                Some(answer)
            } else {
                None
            }
        } else {
            Some(answer)
        }
    })
}

/// The first item replaced by a failure, and without the second.
pub fn skipped_while_by_calls(source: &[Seen]) -> Result<Vec<Seen>, AllocError> {
    let mut items: u32 = 0;
    each(source, |answer: Answer| {
        if let Answer::Item(x) = answer {
            items = items.wrapping_add(1);
            match items {
                1 => Some(Answer::Failure(x.wrapping_add(8))),
                2 => None,
                _ => Some(answer),
            }
        } else {
            Some(answer)
        }
    })
}

/// The first item replaced by a failure, and the third by an end, after which come ends without draws.
pub fn taken_while_by_calls(source: &[Seen]) -> Result<Vec<Seen>, AllocError> {
    let mut items: u32 = 0;
    cut(source, |answer: Answer| {
        if let Answer::Item(x) = answer {
            items = items.wrapping_add(1);
            match items {
                1 => (Answer::Failure(x.wrapping_add(8)), false),
                2 => (answer, false),
                _ => (Answer::End, true),
            }
        } else {
            (answer, false)
        }
    })
}

/// Each third item up to the first 2 that is none of them replaced by a failure, the others before that 2 left out, and from it on all as it is.
pub fn skipped_while_failing(source: &[Seen]) -> Result<Vec<Seen>, AllocError> {
    let mut items: u32 = 0;
    let mut found = false;
    each(source, |answer: Answer| {
        if let Answer::Item(x) = answer {
            items = items.wrapping_add(1);
            if found {
                Some(answer)
            } else if items % 3 == 0 {
                Some(Answer::Failure(8))
            } else if x == 2 {
                found = true;
                Some(answer)
            } else {
                None
            }
        } else {
            Some(answer)
        }
    })
}

/// Each third item replaced by a failure, and the first 2 that is none of them by an end, after which come ends without draws.
pub fn taken_while_failing(source: &[Seen]) -> Result<Vec<Seen>, AllocError> {
    let mut items: u32 = 0;
    cut(source, |answer: Answer| {
        if let Answer::Item(x) = answer {
            items = items.wrapping_add(1);
            if items % 3 == 0 {
                (Answer::Failure(8), false)
            } else if x == 2 {
                (Answer::End, true)
            } else {
                (answer, false)
            }
        } else {
            (answer, false)
        }
    })
}
