//! Searches, sorts and groups of `fallible_itertools` that take a borrowed script.
use crate::AllocError;
use crate::answer::{Answer, Failed, append_digit, items_code, pair_code};
use crate::case::Given;
use crate::driving::Tally;
use crate::lists::{LISTS, list_at};
use crate::script::Script;
use fallible_iterator::{FallibleIterator, Fault};
use fallible_itertools::{Either, FallibleItertools, MinMaxResult};
use std::cell::Cell;
use std::collections::HashMap;
use std::io;

// A call that takes a script.
#[derive(Clone, Copy, Debug)]
enum Call {
    // of 2
    Contains,
    AllEqual,
    AllEqualValue,
    IsSorted,
    AllUnique,
    IsSortedBy,
    // by a predicate that is true on 2
    FindOrLast,
    // by the same
    FindOrFirst,
    // by the same
    FindPosition,
    PositionMax,
    PositionMin,
    // of pairs of a place and an item, by the items
    MinMaxBy,
    // the same, by a key
    MinMaxByKey,
    UntilFailure,
    PartitionFailures,
    // by whether they are 1
    CountsBy,
    Sorted,
    // by keys that go down
    SortedDown,
    // by a closure that has the greater first
    SortedBy,
    // by keys that are all equal
    SortedByOneKey,
    InPlace,
    // by a closure that has the greater first
    InPlaceBy,
    // by keys that go down
    InPlaceByKey,
    // of pairs of an item and its place
    GroupMap,
    // by the items themselves
    GroupMapBy,
    // by the items themselves: their places in order
    FoldByKey,
    // into those that are 1 and the others, by their places
    PartitionMap,
    // of two
    Tail,
    // of two
    KSmallest,
}

// What came of a call, and how many answers the script had given by then.
#[derive(Clone, Copy, PartialEq, Eq, Debug)]
struct Told {
    answer: Answer,
    draws: u32,
}

/// Makes each call over every script, prints the first mismatch of each call and then the tally, and adds this to the total.
pub fn drive_gathering(total: &mut Tally) -> io::Result<()> {
    let mut tally = Tally::none();
    let calls = [
        Call::Contains,
        Call::AllEqual,
        Call::AllEqualValue,
        Call::IsSorted,
        Call::AllUnique,
        Call::IsSortedBy,
        Call::FindOrLast,
        Call::FindOrFirst,
        Call::FindPosition,
        Call::PositionMax,
        Call::PositionMin,
        Call::MinMaxBy,
        Call::MinMaxByKey,
        Call::UntilFailure,
        Call::PartitionFailures,
        Call::CountsBy,
        Call::Sorted,
        Call::SortedDown,
        Call::SortedBy,
        Call::SortedByOneKey,
        Call::InPlace,
        Call::InPlaceBy,
        Call::InPlaceByKey,
        Call::GroupMap,
        Call::GroupMapBy,
        Call::FoldByKey,
        Call::PartitionMap,
        Call::Tail,
        Call::KSmallest,
    ];
    for call in calls {
        let mut of_call = Tally::none();
        for number in 0..LISTS {
            let answers = list_at(number);
            let given = Given::new(answers)?;
            let draws = Cell::new(0);
            let answer = make(call, Script::new(answers, &draws))?;
            let got = Told {
                answer,
                draws: draws.get(),
            };
            let wanted = wanted(call, &given);
            if of_call.add(got == wanted) {
                println!("a script: {answers:?}: {call:?}: wanted {wanted:?}, got {got:?}");
            }
        }
        tally.add_all(of_call);
    }
    let cases = tally.cases;
    let mismatches = tally.mismatches;
    println!("searches, sorts and groups of a script: {cases} cases, {mismatches} mismatches");
    total.add_all(tally);
    Ok(())
}

// Makes the call.
fn make(call: Call, mut script: Script<'_>) -> Result<Answer, AllocError> {
    match call {
        Call::Contains => Ok(truth(script.contains(&2))),
        Call::AllEqual => Ok(truth(script.all_equal())),
        Call::AllEqualValue => Ok(Answer::of(match script.all_equal_value() {
            Ok(Ok(x)) => Ok(Some(x)),
            Ok(Err(Some((x, y)))) => Ok(Some(pair_code(x, y))),
            Ok(Err(None)) => Ok(None),
            Err(e) => Err(e),
        })),
        Call::AllUnique => match script.all_unique() {
            Ok(unique) => Ok(truth(Ok(unique))),
            Err(e) => Ok(truth(Err(e))),
        },
        Call::IsSorted => Ok(truth((&mut script).is_sorted())),
        Call::IsSortedBy => Ok(truth(
            (&mut script).is_sorted_by(|x: &u32, y: &u32| Ok(*x <= *y)),
        )),
        Call::FindOrLast => Ok(Answer::of(
            (&mut script).find_or_last(|x: &u32| Ok(*x == 2)),
        )),
        Call::FindOrFirst => Ok(Answer::of(
            (&mut script).find_or_first(|x: &u32| Ok(*x == 2)),
        )),
        Call::FindPosition => Ok(Answer::of(
            match script.find_position(|x: &u32| Ok(*x == 2)) {
                Ok(Some((place, x))) => Ok(Some(pair_code(places_before(place), x))),
                Ok(None) => Ok(None),
                Err(e) => Err(e),
            },
        )),
        Call::PositionMax => Ok(Answer::of((&mut script).position_max())),
        Call::PositionMin => Ok(Answer::of((&mut script).position_min())),
        Call::MinMaxBy => {
            Ok(read_both((&mut script).enumerate().minmax_by(
                |p: &(usize, u32), q: &(usize, u32)| Ok(p.1.cmp(&q.1)),
            )))
        }
        Call::MinMaxByKey => Ok(read_both(
            (&mut script)
                .enumerate()
                .minmax_by_key(|p: &(usize, u32)| Ok(p.1)),
        )),
        Call::UntilFailure => {
            let (items, failure): (Vec<u32>, Option<Failed>) = script.collect_until_failure();
            let failed = failure.map_or(0, |e: Failed| e.0);
            Ok(Answer::Item(pair_code(
                items_code(0, items.as_slice()),
                failed,
            )))
        }
        Call::PartitionFailures => {
            let (items, failures): (Vec<u32>, Vec<Failed>) = (&mut script).partition_failures();
            let mut read: u32 = 0;
            for e in &failures {
                read = append_digit(read, e.0);
            }
            Ok(Answer::Item(pair_code(
                items_code(0, items.as_slice()),
                read,
            )))
        }
        Call::CountsBy => match (&mut script).counts_by(|x: u32| Ok(x == 1)) {
            Ok(counts) => Ok(Answer::Item(pair_code(
                places_before(counts.get(&true).copied().unwrap_or(0)),
                places_before(counts.get(&false).copied().unwrap_or(0)),
            ))),
            Err(e) => Ok(Answer::Failure(e.0)),
        },
        Call::SortedBy => read((&mut script).sorted_by(|x: &u32, y: &u32| y.cmp(x))),
        Call::Sorted => read((&mut script).sorted()),
        Call::SortedDown => read((&mut script).sorted_by_key(|x: &u32| 9u32.wrapping_sub(*x))),
        Call::SortedByOneKey => read((&mut script).sorted_by_key(|_: &u32| 0u32)),
        Call::InPlace => read((&mut script).sorted_unstable()),
        Call::InPlaceBy => read((&mut script).sorted_unstable_by(|x: &u32, y: &u32| y.cmp(x))),
        Call::InPlaceByKey => {
            read((&mut script).sorted_unstable_by_key(|x: &u32| 9u32.wrapping_sub(*x)))
        }
        Call::GroupMap => {
            let mut place: u32 = 0;
            let pairs = (&mut script).map(|x: u32| {
                place = place.wrapping_add(1);
                Ok((x, place))
            });
            read_groups(pairs.into_group_map())
        }
        Call::GroupMapBy => read_groups((&mut script).into_group_map_by(|x: &u32| Ok(*x))),
        Call::FoldByKey => {
            let mut place: u32 = 0;
            read_folds((&mut script).fold_by_key(
                |x: &u32| Ok(*x),
                0,
                |places: u32, _: u32| {
                    place = place.wrapping_add(1);
                    Ok(append_digit(places, place))
                },
            ))
        }
        Call::PartitionMap => {
            let mut place: u32 = 0;
            let sides = (&mut script).partition_map(|x: u32| {
                place = place.wrapping_add(1);
                Ok(if x == 1 {
                    Either::Left(place)
                } else {
                    Either::Right(place)
                })
            });
            read_sides(sides)
        }
        Call::Tail => read(match (&mut script).tail(2) {
            Ok(last) => Ok(last.into()),
            Err(fault) => Err(fault),
        }),
        Call::KSmallest => read((&mut script).k_smallest(2)),
    }
}

// The places of the least and of the greatest item as one number, or the failure.
fn read_both(made: Result<MinMaxResult<(usize, u32)>, Failed>) -> Answer {
    match made {
        Ok(MinMaxResult::NoElements) => Answer::End,
        Ok(MinMaxResult::OneElement(only)) => Answer::Item(both_code(only.0, only.0)),
        Ok(MinMaxResult::MinMax(least, greatest)) => Answer::Item(both_code(least.0, greatest.0)),
        Err(e) => Answer::Failure(e.0),
    }
}

// Two places as one number.
fn both_code(least: usize, greatest: usize) -> u32 {
    pair_code(places_before(least), places_before(greatest))
}

// The number, which is small.
fn places_before(number: usize) -> u32 {
    u32::try_from(number).unwrap_or(u32::MAX)
}

// 1 of true and 0 of false, or the failure.
fn truth(answer: Result<bool, Failed>) -> Answer {
    match answer {
        Ok(true) => Answer::Item(1),
        Ok(false) => Answer::Item(0),
        Err(e) => Answer::Failure(e.0),
    }
}

// The items as one number, or the failure.
fn read(made: Result<Vec<u32>, Failed>) -> Result<Answer, AllocError> {
    match made {
        Ok(items) => {
            let mut read: u32 = 0;
            for x in &items {
                read = append_digit(read, *x);
            }
            Ok(Answer::Item(read))
        }
        Err(e) => Ok(Answer::Failure(e.0)),
    }
}

// The places of the items that are 1 and of those that are 2 as one number, or the failure.
fn read_groups(made: Result<HashMap<u32, Vec<u32>>, Failed>) -> Result<Answer, AllocError> {
    match made {
        Ok(groups) => Ok(Answer::Item(pair_code(
            places(groups.get(&1)),
            places(groups.get(&2)),
        ))),
        Err(e) => Ok(Answer::Failure(e.0)),
    }
}

// The folds of the items that are 1 and of those that are 2 as one number, or the failure.
fn read_folds(made: Result<HashMap<u32, u32>, Failed>) -> Result<Answer, AllocError> {
    match made {
        Ok(folds) => Ok(Answer::Item(pair_code(
            folds.get(&1).copied().unwrap_or(0),
            folds.get(&2).copied().unwrap_or(0),
        ))),
        Err(e) => Ok(Answer::Failure(e.0)),
    }
}

// Both sides' places as one number, or the failure.
fn read_sides(made: Result<(Vec<u32>, Vec<u32>), Failed>) -> Result<Answer, AllocError> {
    match made {
        Ok((left, right)) => Ok(Answer::Item(pair_code(
            items_code(0, left.as_slice()),
            items_code(0, right.as_slice()),
        ))),
        Err(e) => Ok(Answer::Failure(e.0)),
    }
}

// The places as one number; 0 where there are none.
fn places(group: Option<&Vec<u32>>) -> u32 {
    match group {
        Some(places) => items_code(0, places.as_slice()),
        None => 0,
    }
}

// What the call must come to, by the whole list: the first item that decides, the first failure or the first end, and nothing is drawn after it.
fn wanted(call: Call, given: &Given) -> Told {
    let mut first: u32 = 0;
    let mut last: u32 = 0;
    let mut before_last: u32 = 0;
    let mut ones: u32 = 0;
    let mut twos: u32 = 0;
    let mut in_order: u32 = 0;
    let mut failures: u32 = 0;
    let mut place: u32 = 0;
    let mut greatest = Answer::End;
    let mut least = Answer::End;
    let mut of_ones: u32 = 0;
    let mut of_twos: u32 = 0;
    let mut draws: u32 = 0;
    for seen in &given.all {
        draws = seen.draws;
        let decided = match seen.answer {
            Answer::Item(x) => decided(call, first, last, place, x),
            Answer::Failure(e) => match call {
                Call::UntilFailure => Some(Answer::Item(pair_code(in_order, e))),
                Call::PartitionFailures => {
                    failures = append_digit(failures, e);
                    None
                }
                _ => Some(Answer::Failure(e)),
            },
            Answer::End => break,
        };
        if let Some(answer) = decided {
            return Told { answer, draws };
        }
        if let Answer::Item(x) = seen.answer {
            // The last 2 is the greatest, and the first 1 the least; where all are equal, the last and the first.
            greatest = if x == 2 || twos == 0 {
                Answer::Item(place)
            } else {
                greatest
            };
            least = if place == 0 || (x == 1 && ones == 0) {
                Answer::Item(place)
            } else {
                least
            };
            first = if first == 0 { x } else { first };
            before_last = last;
            last = x;
            ones = if x == 1 { ones.wrapping_add(1) } else { ones };
            twos = if x == 2 { twos.wrapping_add(1) } else { twos };
            in_order = append_digit(in_order, x);
            place = place.wrapping_add(1);
            of_ones = if x == 1 {
                append_digit(of_ones, place)
            } else {
                of_ones
            };
            of_twos = if x == 2 {
                append_digit(of_twos, place)
            } else {
                of_twos
            };
        }
    }
    let answer = match call {
        Call::Contains => Answer::Item(0),
        Call::AllEqual | Call::AllUnique | Call::IsSorted | Call::IsSortedBy => Answer::Item(1),
        Call::AllEqualValue if first == 0 => Answer::End,
        Call::AllEqualValue => Answer::Item(first),
        Call::FindOrLast if last == 0 => Answer::End,
        Call::FindOrLast => Answer::Item(last),
        Call::FindOrFirst if first == 0 => Answer::End,
        Call::FindOrFirst => Answer::Item(first),
        Call::FindPosition => Answer::End,
        Call::PositionMax => greatest,
        Call::PositionMin => least,
        Call::MinMaxBy | Call::MinMaxByKey => match (least, greatest) {
            (Answer::Item(least), Answer::Item(greatest)) => {
                Answer::Item(pair_code(least, greatest))
            }
            _ => Answer::End,
        },
        Call::UntilFailure => Answer::Item(pair_code(in_order, 0)),
        Call::PartitionFailures => Answer::Item(pair_code(in_order, failures)),
        Call::CountsBy => Answer::Item(pair_code(ones, twos)),
        Call::Sorted | Call::InPlace => Answer::Item(so_many(so_many(0, ones, 1), twos, 2)),
        Call::SortedDown | Call::SortedBy | Call::InPlaceBy | Call::InPlaceByKey => {
            Answer::Item(so_many(so_many(0, twos, 2), ones, 1))
        }
        Call::SortedByOneKey => Answer::Item(in_order),
        Call::Tail => Answer::Item(append_digit(before_last, last)),
        Call::KSmallest => {
            let least = ones.min(2);
            let greatest = twos.min(2u32.saturating_sub(least));
            Answer::Item(so_many(so_many(0, least, 1), greatest, 2))
        }
        Call::GroupMap | Call::FoldByKey | Call::PartitionMap => {
            Answer::Item(pair_code(of_ones, of_twos))
        }
        Call::GroupMapBy => Answer::Item(pair_code(so_many(0, ones, 1), so_many(0, twos, 2))),
    };
    Told { answer, draws }
}

// What the call answers at the item x, where it stops there.
fn decided(call: Call, first: u32, last: u32, place: u32, x: u32) -> Option<Answer> {
    match call {
        Call::Contains if x == 2 => Some(Answer::Item(1)),
        Call::AllEqual if first != 0 && x != first => Some(Answer::Item(0)),
        Call::AllEqualValue if first != 0 && x != first => Some(Answer::Item(pair_code(first, x))),
        // Where two items came that aren't equal, these are the first and the last.
        Call::AllUnique if x == first || x == last => Some(Answer::Item(0)),
        Call::IsSorted | Call::IsSortedBy if x < last => Some(Answer::Item(0)),
        Call::FindOrLast | Call::FindOrFirst if x == 2 => Some(Answer::Item(2)),
        Call::FindPosition if x == 2 => Some(Answer::Item(pair_code(place, 2))),
        _ => None,
    }
}

// So many of x after what was read.
fn so_many(read: u32, number: u32, x: u32) -> u32 {
    let mut read = read;
    for _ in 0..number {
        read = append_digit(read, x);
    }
    read
}
