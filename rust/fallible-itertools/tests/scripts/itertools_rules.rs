//! Rules of the adapters of `fallible_itertools`, over the whole list of a source's answers. None of them draws anything.
use crate::AllocError;
use crate::answer::{Answer, Seen, append_digit, pair_code};
use crate::rules::{add_ends, by_calls, cut, each, fused};
use std::cmp::Ordering;

// What an adapter holds: a key or a number of items beside it, and what is returned of it.
#[derive(Clone, Copy)]
struct Held {
    key: u32,
    answered: u32,
}

// The list, each item replaced by what the rule returns for it and what is held, or left out; the rule also says what is held then. A failure and an end are stops, the source's and the rule's: before one comes what is held, which is not held any more then.
fn held_to_stops<F: FnMut(Option<Held>, u32) -> (Option<Answer>, Option<Held>)>(
    source: &[Seen],
    mut rule: F,
) -> Result<Vec<Seen>, AllocError> {
    let mut made = Vec::new();
    let mut held = None;
    for seen in source {
        let draws = seen.draws;
        let (answered, kept) = match seen.answer {
            Answer::Item(x) => rule(held, x),
            stop => (Some(stop), held),
        };
        held = kept;
        let Some(answer) = answered else {
            continue;
        };
        let is_item = matches!(answer, Answer::Item(_));
        if !is_item {
            if let Some(before) = item_of(held) {
                made.push(Seen {
                    answer: before,
                    draws,
                });
            }
            held = None;
        }
        made.push(Seen { answer, draws });
    }
    Ok(made)
}

// What is held then.
fn hold(key: u32, answered: u32) -> Option<Held> {
    Some(Held { key, answered })
}

// What is held as an item, or nothing.
fn item_of(held: Option<Held>) -> Option<Answer> {
    match held {
        Some(before) => Some(Answer::Item(before.answered)),
        None => None,
    }
}

/// The first of each run of equal items, at the place of the answer after the run. A stop parts a run.
pub fn deduped(source: &[Seen]) -> Result<Vec<Seen>, AllocError> {
    held_to_stops(source, |held: Option<Held>, x: u32| {
        first_of_key(held, x, x)
    })
}

/// The first of each run of equal items after their number, at the place of the answer after the run. A stop parts a run.
pub fn counted(source: &[Seen]) -> Result<Vec<Seen>, AllocError> {
    held_to_stops(source, |held: Option<Held>, x: u32| match held {
        Some(before) if before.key == x => {
            (None, hold(x, before.answered.wrapping_add(pair_code(1, 0))))
        }
        _ => (item_of(held), hold(x, pair_code(1, x))),
    })
}

/// The key of an item: the item itself, one more from the fourth call on; it fails on each third call.
pub fn key_by_calls(calls: u32, x: u32) -> Result<u32, u32> {
    if calls % 3 == 0 {
        Err(x.wrapping_add(8))
    } else {
        Ok(x.wrapping_add(calls / 4))
    }
}

/// The first of each run of items with equal keys, at the place of the answer after the run, where each third item is replaced by a failure.
pub fn deduped_by_key(source: &[Seen]) -> Result<Vec<Seen>, AllocError> {
    let mut items: u32 = 0;
    held_to_stops(source, |held: Option<Held>, x: u32| {
        items = items.wrapping_add(1);
        match key_by_calls(items, x) {
            Ok(key) => first_of_key(held, key, x),
            Err(e) => (Some(Answer::Failure(e)), held),
        }
    })
}

// What an item of that key makes where the first of its run stands for all of it.
fn first_of_key(held: Option<Held>, key: u32, x: u32) -> (Option<Answer>, Option<Held>) {
    match held {
        Some(before) if before.key == key => (None, held),
        _ => (item_of(held), hold(key, x)),
    }
}

/// The first of each run of items that the closure, called on the first of the run and each further item, finds the same, at the place of the answer after the run; an item on which it fails is replaced by its failure.
pub fn deduped_by(source: &[Seen]) -> Result<Vec<Seen>, AllocError> {
    let mut calls: u32 = 0;
    held_to_stops(source, |held: Option<Held>, x: u32| {
        let Some(before) = held else {
            return (None, hold(0, x));
        };
        calls = calls.wrapping_add(1);
        match by_calls(calls, before.answered.wrapping_mul(10).wrapping_add(x)) {
            Ok(true) => (None, held),
            Ok(false) => (Some(Answer::Item(before.answered)), hold(0, x)),
            Err(e) => (Some(Answer::Failure(e)), held),
        }
    })
}

/// The first of each run of items that the closure, called as by `dedup_by`, finds the same after their number, at the place of the answer after the run; an item on which it fails is replaced by its failure.
pub fn counted_by(source: &[Seen]) -> Result<Vec<Seen>, AllocError> {
    let mut calls: u32 = 0;
    held_to_stops(source, |held: Option<Held>, x: u32| {
        let Some(before) = held else {
            return (None, hold(x, pair_code(1, x)));
        };
        calls = calls.wrapping_add(1);
        match by_calls(calls, before.key.wrapping_mul(10).wrapping_add(x)) {
            Ok(true) => (
                None,
                hold(before.key, before.answered.wrapping_add(pair_code(1, 0))),
            ),
            Ok(false) => (item_of(held), hold(x, pair_code(1, x))),
            Err(e) => (Some(Answer::Failure(e)), held),
        }
    })
}

/// The runs of items with equal keys, each with its key and at the place of the answer after it, where each third item is replaced by a failure.
pub fn chunked_by_key(source: &[Seen]) -> Result<Vec<Seen>, AllocError> {
    let mut items: u32 = 0;
    held_to_stops(source, |held: Option<Held>, x: u32| {
        items = items.wrapping_add(1);
        match key_by_calls(items, x) {
            Ok(key) => all_of_key(held, key, x),
            Err(e) => (Some(Answer::Failure(e)), held),
        }
    })
}

// What an item of that key makes where a run stands as a whole.
fn all_of_key(held: Option<Held>, key: u32, x: u32) -> (Option<Answer>, Option<Held>) {
    match held {
        Some(before) if before.key == key => (None, hold(key, append_digit(before.answered, x))),
        _ => (item_of(held), hold(key, append_digit(key, x))),
    }
}

/// The items in twos, each two at the place of the second, and one that is left before the stop after it.
pub fn in_twos(source: &[Seen]) -> Result<Vec<Seen>, AllocError> {
    held_to_stops(source, |held: Option<Held>, x: u32| {
        if let Some(before) = held {
            let both = append_digit(before.answered, x);
            (Some(Answer::Item(both)), None)
        } else {
            (None, hold(1, append_digit(0, x)))
        }
    })
}

/// What becomes of two items by the number of calls: one item, or two in the other order.
pub fn coalesced_by_calls(
    calls: u32,
    first: u32,
    second: u32,
) -> Result<Result<u32, (u32, u32)>, u32> {
    let both = first.wrapping_mul(10).wrapping_add(second);
    match by_calls(calls, both) {
        Ok(true) => Ok(Ok(both)),
        Ok(false) => Ok(Err((second, first))),
        Err(e) => Err(e),
    }
}

/// Each item put to what is held, by a closure that is called on both: what it makes of them is held, or the one that it puts first stands in the item's place and the other is held; where it fails, its failure stands there and nothing is held.
pub fn coalesced(source: &[Seen]) -> Result<Vec<Seen>, AllocError> {
    let mut calls: u32 = 0;
    held_to_stops(source, |held: Option<Held>, x: u32| {
        let Some(before) = held else {
            return (None, hold(0, x));
        };
        calls = calls.wrapping_add(1);
        match coalesced_by_calls(calls, before.answered, x) {
            Ok(Ok(one)) => (None, hold(0, one)),
            Ok(Err((first, second))) => (Some(Answer::Item(first)), hold(0, second)),
            Err(e) => (Some(Answer::Failure(e)), None),
        }
    })
}

/// Each item beside its position among the items between two stops, at the place of the answer after it: 1 first, 2 between others, 3 last, 4 alone.
pub fn positioned(source: &[Seen]) -> Result<Vec<Seen>, AllocError> {
    let mut made = Vec::new();
    let mut was_item = false;
    let mut held: Option<(bool, u32)> = None;
    for seen in source {
        let is_item = matches!(seen.answer, Answer::Item(_));
        if let Some((is_later, x)) = held {
            let position = match (is_later, is_item) {
                (false, true) => 1,
                (true, true) => 2,
                (true, false) => 3,
                (false, false) => 4,
            };
            made.push(Seen {
                answer: Answer::Item(pair_code(position, x)),
                draws: seen.draws,
            });
        }
        held = match seen.answer {
            Answer::Item(x) => Some((was_item, x)),
            _ => {
                made.push(*seen);
                None
            }
        };
        was_item = is_item;
    }
    Ok(made)
}

/// The list without the items that equal one before them.
pub fn unique(source: &[Seen]) -> Result<Vec<Seen>, AllocError> {
    let mut made: Vec<Seen> = Vec::new();
    for seen in source {
        let mut came = false;
        for before in made.as_slice() {
            came = came || before.answer == seen.answer;
        }
        let is_item = matches!(seen.answer, Answer::Item(_));
        if !(is_item && came) {
            made.push(*seen);
        }
    }
    Ok(made)
}

/// The failures and ends, and of the items those that equal exactly one before them.
pub fn duplicates(source: &[Seen]) -> Result<Vec<Seen>, AllocError> {
    let mut came: Vec<Answer> = Vec::new();
    let mut made: Vec<Seen> = Vec::new();
    for seen in source {
        let mut times: u32 = 0;
        for before in came.as_slice() {
            if *before == seen.answer {
                times = times.wrapping_add(1);
            }
        }
        came.push(seen.answer);
        let is_item = matches!(seen.answer, Answer::Item(_));
        if !is_item || times == 1 {
            made.push(*seen);
        }
    }
    Ok(made)
}

/// The list without the items whose keys equal one before them, where each third item is replaced by a failure.
pub fn unique_by(source: &[Seen]) -> Result<Vec<Seen>, AllocError> {
    let mut keys: Vec<u32> = Vec::new();
    let mut items: u32 = 0;
    let mut made: Vec<Seen> = Vec::new();
    for seen in source {
        let Answer::Item(x) = seen.answer else {
            made.push(*seen);
            continue;
        };
        items = items.wrapping_add(1);
        match key_by_calls(items, x) {
            Ok(key) => {
                let mut came = false;
                for before in keys.as_slice() {
                    came = came || *before == key;
                }
                if !came {
                    keys.push(key);
                    made.push(*seen);
                }
            }
            Err(e) => made.push(Seen {
                answer: Answer::Failure(e),
                draws: seen.draws,
            }),
        }
    }
    Ok(made)
}

/// Each item but the first beside the item before it.
pub fn windowed(source: &[Seen]) -> Result<Vec<Seen>, AllocError> {
    let mut before = None;
    each(source, |answer: Answer| {
        if let Answer::Item(x) = answer {
            let beside = before;
            before = Some(x);
            match beside {
                Some(y) => Some(Answer::Item(pair_code(y, x))),
                None => None,
            }
        } else {
            Some(answer)
        }
    })
}

/// Each second item beside the item before it, and no other item.
pub fn tupled(source: &[Seen]) -> Result<Vec<Seen>, AllocError> {
    let mut first = None;
    each(source, |answer: Answer| {
        if let Answer::Item(x) = answer {
            let before = first;
            first = if before.is_some() { None } else { Some(x) };
            match before {
                Some(y) => Some(Answer::Item(pair_code(y, x))),
                None => None,
            }
        } else {
            Some(answer)
        }
    })
}

/// The list with a separator before each item but the first.
pub fn separated(source: &[Seen], separator: u32) -> Result<Vec<Seen>, AllocError> {
    let mut made = Vec::new();
    let mut is_first = true;
    for seen in source {
        if let Answer::Item(_) = seen.answer {
            if !is_first {
                made.push(Seen {
                    answer: Answer::Item(separator),
                    draws: seen.draws,
                });
            }
            is_first = false;
        }
        made.push(*seen);
    }
    Ok(made)
}

/// What the closure returns before each item but the first, at that item's place: it is called with the number of its call, and its failure stands before the item too.
pub fn separated_by_calls(source: &[Seen]) -> Result<Vec<Seen>, AllocError> {
    let mut made = Vec::new();
    let mut is_first = true;
    let mut calls: u32 = 0;
    for seen in source {
        if let Answer::Item(_) = seen.answer {
            if !is_first {
                calls = calls.wrapping_add(1);
                let answer = match key_by_calls(calls, 7) {
                    Ok(separator) => Answer::Item(separator),
                    Err(e) => Answer::Failure(e),
                };
                made.push(Seen {
                    answer,
                    draws: seen.draws,
                });
            }
            is_first = false;
        }
        made.push(*seen);
    }
    Ok(made)
}

/// The first item replaced by a failure, and after the third ends without draws.
pub fn taken_while_inclusive(source: &[Seen]) -> Result<Vec<Seen>, AllocError> {
    let mut items: u32 = 0;
    cut(source, |answer: Answer| {
        if let Answer::Item(x) = answer {
            items = items.wrapping_add(1);
            match items {
                1 => (Answer::Failure(x.wrapping_add(8)), false),
                2 => (answer, false),
                _ => (answer, true),
            }
        } else {
            (answer, false)
        }
    })
}

/// Each failure 50 more.
pub fn failures_raised(source: &[Seen]) -> Result<Vec<Seen>, AllocError> {
    cut(source, |answer: Answer| match answer {
        Answer::Failure(e) => (Answer::Failure(e.wrapping_add(50)), false),
        _ => (answer, false),
    })
}

/// Each failure ten times, and how many items and failures stand before it.
pub fn failures_indexed(source: &[Seen]) -> Result<Vec<Seen>, AllocError> {
    let mut index: u32 = 0;
    cut(source, |answer: Answer| {
        let before = index;
        if answer != Answer::End {
            index = index.wrapping_add(1);
        }
        match answer {
            Answer::Failure(e) => (
                Answer::Failure(e.wrapping_mul(10).wrapping_add(before)),
                false,
            ),
            _ => (answer, false),
        }
    })
}

/// The list up to its failure number n, and then ends without draws; n is at least 1.
pub fn stopped_after(source: &[Seen], n: u32) -> Result<Vec<Seen>, AllocError> {
    let mut failures: u32 = 0;
    cut(source, |answer: Answer| {
        if let Answer::Failure(_) = answer {
            failures = failures.wrapping_add(1);
            (answer, failures == n)
        } else {
            (answer, false)
        }
    })
}

/// Each item on whose call the closure fails replaced by its failure; where it rejects one, an end without a draw stands before it, and it is called again. It never refuses two times in turn.
pub fn peeked_while(source: &[Seen]) -> Result<Vec<Seen>, AllocError> {
    let mut made = Vec::new();
    let mut calls: u32 = 0;
    for seen in source {
        let draws = seen.draws;
        let answer = if let Answer::Item(x) = seen.answer {
            calls = calls.wrapping_add(1);
            if by_calls(calls, x) == Ok(false) {
                made.push(Seen {
                    answer: Answer::End,
                    draws,
                });
                calls = calls.wrapping_add(1);
            }
            match by_calls(calls, x) {
                Ok(_) => seen.answer,
                Err(e) => Answer::Failure(e),
            }
        } else {
            seen.answer
        };
        made.push(Seen { answer, draws });
    }
    Ok(made)
}

// One answer for what comes first of each list, fused: the left's failure, and otherwise the right's, and otherwise what the rule makes of both. The rule also says whether the left's and the right's are consumed; what isn't comes first again. Beside a failure an item is not consumed, and beside one of the left the right isn't looked at. The right drew so many answers at its making.
fn side_by_side<F: FnMut(Answer, Answer) -> (Answer, bool, bool)>(
    left: &[Seen],
    right: &[Seen],
    made: u32,
    mut rule: F,
) -> Result<Vec<Seen>, AllocError> {
    let (left, right) = (fused(left)?, fused(right)?);
    let mut all = Vec::new();
    let mut left_place: usize = 0;
    let mut right_place: usize = 0;
    let mut right_draws = made;
    for _ in 0..40 {
        let (Some(a), Some(b)) = (left.get(left_place), right.get(right_place)) else {
            break;
        };
        let (answer, left_goes, right_goes) = if let Answer::Failure(e) = a.answer {
            (Answer::Failure(e), true, false)
        } else {
            right_draws = b.draws;
            if let Answer::Failure(e) = b.answer {
                (Answer::Failure(e), a.answer == Answer::End, true)
            } else {
                rule(a.answer, b.answer)
            }
        };
        let draws = a.draws.wrapping_add(right_draws);
        all.push(Seen { answer, draws });
        left_place = left_place.wrapping_add(if left_goes { 1 } else { 0 });
        right_place = right_place.wrapping_add(if right_goes { 1 } else { 0 });
    }
    Ok(all)
}

/// Of two items the left's where the closure is true, and the right's where it is false, and the other comes first again; where it fails, both are lost. Beside an end the other's item.
pub fn merged(left: &[Seen], right: &[Seen], made: u32) -> Result<Vec<Seen>, AllocError> {
    let mut calls: u32 = 0;
    side_by_side(left, right, made, |a: Answer, b: Answer| match (a, b) {
        (Answer::Item(x), Answer::Item(y)) => {
            calls = calls.wrapping_add(1);
            match by_calls(calls, x.wrapping_mul(10).wrapping_add(y)) {
                Ok(true) => (a, true, false),
                Ok(false) => (b, false, true),
                Err(e) => (Answer::Failure(e), true, true),
            }
        }
        (Answer::Item(_), _) => (a, true, true),
        _ => (b, true, true),
    })
}

/// Of two items the left's unless it is greater, and the other comes first again. Beside an end the other's item.
pub fn merged_in_order(left: &[Seen], right: &[Seen]) -> Result<Vec<Seen>, AllocError> {
    side_by_side(left, right, 0, |a: Answer, b: Answer| match (a, b) {
        (Answer::Item(x), Answer::Item(y)) => {
            if x > y {
                (b, false, true)
            } else {
                (a, true, false)
            }
        }
        (Answer::Item(_), _) => (a, true, true),
        _ => (b, true, true),
    })
}

// A list, how far it was answered, and how many draws it took so far.
struct Merging {
    list: Vec<Seen>,
    place: usize,
    draws: u32,
}

/// Of the first answers of all lists, each fused, the first failure, beyond which they aren't looked at. Without one the first of the items that goes before all others, and without an item an end. What isn't answered comes first again.
pub fn merged_of_all<F: FnMut(u32, u32) -> bool>(
    sources: &[Vec<Seen>],
    mut goes_first: F,
) -> Result<Vec<Seen>, AllocError> {
    let mut lists: Vec<Merging> = Vec::new();
    for source in sources {
        let list = fused(source.as_slice())?;
        lists.push(Merging {
            list,
            place: 0,
            draws: 0,
        });
    }
    let mut all = Vec::new();
    for _ in 0..40 {
        let (answer, number) = first_of_all(&mut lists, &mut goes_first);
        if let Some(answered) = lists.get_mut(number) {
            answered.place = answered.place.wrapping_add(1);
        }
        let mut draws: u32 = 0;
        for merging in &lists {
            draws = draws.wrapping_add(merging.draws);
        }
        all.push(Seen { answer, draws });
    }
    Ok(all)
}

// The answer, and the number of its list; where all are over, none has that number.
fn first_of_all<F: FnMut(u32, u32) -> bool>(
    lists: &mut Vec<Merging>,
    goes_first: &mut F,
) -> (Answer, usize) {
    let mut first = Answer::End;
    let mut number = lists.len();
    for i in 0..lists.len() {
        let Some(merging) = lists.get_mut(i) else {
            break;
        };
        let Some(seen) = merging.list.get(merging.place) else {
            break;
        };
        merging.draws = seen.draws;
        match (first, seen.answer) {
            (_, Answer::Failure(e)) => return (Answer::Failure(e), i),
            (_, Answer::End) => {}
            (Answer::Item(x), Answer::Item(y)) => {
                if !goes_first(x, y) {
                    first = seen.answer;
                    number = i;
                }
            }
            (_, Answer::Item(_)) => {
                first = seen.answer;
                number = i;
            }
        }
    }
    (first, number)
}

/// Two items as a pair, and beside an end the other's item with 0 in the end's place.
pub fn zipped_longest(left: &[Seen], right: &[Seen]) -> Result<Vec<Seen>, AllocError> {
    side_by_side(left, right, 0, |a: Answer, b: Answer| {
        let answer = match (a, b) {
            (Answer::Item(x), Answer::Item(y)) => Answer::Item(pair_code(x, y)),
            (Answer::Item(x), _) => Answer::Item(pair_code(x, 0)),
            (_, Answer::Item(y)) => Answer::Item(pair_code(0, y)),
            _ => Answer::End,
        };
        (answer, true, true)
    })
}

/// How two items compare, or a failure on each third call.
pub fn ordering_by_calls(calls: u32, x: u32, y: u32) -> Result<Ordering, u32> {
    if calls % 3 == 0 {
        Err(x.wrapping_mul(10).wrapping_add(y))
    } else {
        Ok(x.cmp(&y))
    }
}

/// Of two items the lesser with 0 in the other's place, and the greater comes first again; equal ones as a pair; where the comparison fails, both are lost. Beside an end the other's item with 0 in the end's place.
pub fn joined_in_order(left: &[Seen], right: &[Seen]) -> Result<Vec<Seen>, AllocError> {
    let mut calls: u32 = 0;
    side_by_side(left, right, 0, |a: Answer, b: Answer| match (a, b) {
        (Answer::Item(x), Answer::Item(y)) => {
            calls = calls.wrapping_add(1);
            match ordering_by_calls(calls, x, y) {
                Ok(Ordering::Less) => (Answer::Item(pair_code(x, 0)), true, false),
                Ok(Ordering::Equal) => (Answer::Item(pair_code(x, y)), true, true),
                Ok(Ordering::Greater) => (Answer::Item(pair_code(0, y)), false, true),
                Err(e) => (Answer::Failure(e), true, true),
            }
        }
        (Answer::Item(x), _) => (Answer::Item(pair_code(x, 0)), true, true),
        (_, Answer::Item(y)) => (Answer::Item(pair_code(0, y)), true, true),
        _ => (Answer::End, true, true),
    })
}

/// Two items as a pair, and an item beside an end as a failure, by the number of these.
pub fn zipped_equal(left: &[Seen], right: &[Seen]) -> Result<Vec<Seen>, AllocError> {
    let mut calls: u32 = 50;
    side_by_side(left, right, 0, |a: Answer, b: Answer| {
        let answer = match (a, b) {
            (Answer::Item(x), Answer::Item(y)) => Answer::Item(pair_code(x, y)),
            (Answer::Item(_), _) | (_, Answer::Item(_)) => {
                calls = calls.wrapping_add(1);
                Answer::Failure(calls)
            }
            _ => Answer::End,
        };
        (answer, true, true)
    })
}

/// What comes first of the side whose turn it is, and at its end what comes first of the other.
pub fn interleaved(left: &[Seen], right: &[Seen]) -> Result<Vec<Seen>, AllocError> {
    let (left, right) = (fused(left)?, fused(right)?);
    let mut all = Vec::new();
    let mut left_place: usize = 0;
    let mut right_place: usize = 0;
    let mut left_draws: u32 = 0;
    let mut right_draws: u32 = 0;
    let mut right_next = false;
    for _ in 0..40 {
        let (Some(a), Some(b)) = (left.get(left_place), right.get(right_place)) else {
            break;
        };
        let of_left = !right_next || b.answer == Answer::End;
        let of_right = right_next || a.answer == Answer::End;
        if of_left {
            left_draws = a.draws;
            left_place = left_place.wrapping_add(1);
        }
        if of_right {
            right_draws = b.draws;
            right_place = right_place.wrapping_add(1);
        }
        let answer = if of_left && a.answer != Answer::End {
            a.answer
        } else {
            b.answer
        };
        let answer = if right_next && b.answer != Answer::End {
            b.answer
        } else {
            answer
        };
        let draws = left_draws.wrapping_add(right_draws);
        all.push(Seen { answer, draws });
        right_next = !right_next;
    }
    Ok(all)
}

/// What stands at an index that no item has, by the number of calls.
pub fn at_index(calls: u32, index: u32) -> Result<u32, u32> {
    if calls % 2 == 0 {
        Err(index.wrapping_add(30))
    } else {
        Ok(index.wrapping_mul(10).wrapping_add(calls))
    }
}

/// The list up to its first end, then what stands at each index below 3 that no item has, and then ends without draws.
pub fn padded_by_calls(source: &[Seen]) -> Result<Vec<Seen>, AllocError> {
    let mut made = Vec::new();
    let mut items: u32 = 0;
    for seen in source {
        if seen.answer == Answer::End {
            let draws = seen.draws;
            let mut calls: u32 = 0;
            for index in items..3 {
                calls = calls.wrapping_add(1);
                let answer = match at_index(calls, index) {
                    Ok(x) => Answer::Item(x),
                    Err(e) => Answer::Failure(e),
                };
                made.push(Seen { answer, draws });
            }
            add_ends(&mut made, draws)?;
            break;
        }
        if let Answer::Item(_) = seen.answer {
            items = items.wrapping_add(1);
        }
        made.push(*seen);
    }
    Ok(made)
}

/// Each item replaced by ten times it and the number of failures before it.
pub fn beside_failures(source: &[Seen]) -> Result<Vec<Seen>, AllocError> {
    let mut failures: u32 = 0;
    each(source, |answer: Answer| match answer {
        Answer::Item(x) => Some(Answer::Item(x.wrapping_mul(10).wrapping_add(failures))),
        Answer::Failure(_) => {
            failures = failures.wrapping_add(1);
            Some(answer)
        }
        Answer::End => Some(answer),
    })
}

/// Each third failure replaced by another, and each other one whose number, from 1, is odd by an item: ten times it and that number; the rest is left out.
pub fn recovered_by_calls(source: &[Seen]) -> Result<Vec<Seen>, AllocError> {
    let mut failures: u32 = 0;
    each(source, |answer: Answer| {
        if let Answer::Failure(e) = answer {
            failures = failures.wrapping_add(1);
            match by_calls(failures, e) {
                Ok(true) => Some(Answer::Item(e.wrapping_mul(10).wrapping_add(failures))),
                Ok(false) => None,
                Err(d) => Some(Answer::Failure(d)),
            }
        } else {
            Some(answer)
        }
    })
}
