//! The calls of `itertools`.
use crate::{mixed, scattered};
use itertools::{Either, EitherOrBoth, FoldWhile, Itertools, MinMaxResult, Position};
use std::collections::VecDeque;

/// A way of draining.
pub trait Way {
    fn drained<I: Iterator<Item = u64>>(it: I) -> u64;
}

pub struct Fold;

impl Way for Fold {
    fn drained<I: Iterator<Item = u64>>(it: I) -> u64 {
        it.fold(0, mixed)
    }
}

pub struct Next;

impl Way for Next {
    fn drained<I: Iterator<Item = u64>>(it: I) -> u64 {
        let mut value = 0;
        for x in it {
            value = mixed(value, x);
        }
        value
    }
}

fn one_of(both: EitherOrBoth<u64, u64>) -> u64 {
    match both {
        EitherOrBoth::Both(x, y) => x ^ (y << 1),
        EitherOrBoth::Left(x) | EitherOrBoth::Right(x) => x,
    }
}

fn last_of(all: impl Iterator<Item = u64>, n: usize) -> u64 {
    let mut last = VecDeque::new();
    for x in all {
        if last.len() == n {
            last.pop_front();
        }
        last.push_back(x);
    }
    last.into_iter().fold(0, mixed)
}

#[inline(never)]
pub fn dedup<W: Way>(n: u64) -> u64 {
    W::drained((0..n).map(|x| x / 4).dedup())
}

#[inline(never)]
pub fn dedup_by_key<W: Way>(n: u64) -> u64 {
    W::drained((0..n).dedup_by(|x, y| x / 4 == y / 4))
}

#[inline(never)]
pub fn coalesce<W: Way>(n: u64) -> u64 {
    W::drained((0..n).coalesce(|x, y| if x / 4 == y / 4 { Ok(y) } else { Err((x, y)) }))
}

#[inline(never)]
pub fn chunks_16<W: Way>(n: u64) -> u64 {
    W::drained((0..n).chunks(16).into_iter().map(|batch| batch.fold(0, mixed)))
}

#[inline(never)]
pub fn chunks_1000<W: Way>(n: u64) -> u64 {
    W::drained((0..n).chunks(1000).into_iter().map(|batch| batch.fold(0, mixed)))
}

#[inline(never)]
pub fn chunk_by<W: Way>(n: u64) -> u64 {
    W::drained((0..n).group_by(|x| x / 16).into_iter().map(|(_, group)| group.fold(0, mixed)))
}

#[inline(never)]
pub fn tuple_windows<W: Way>(n: u64) -> u64 {
    W::drained((0..n).tuple_windows().map(|(x, y)| x ^ (y << 1)))
}

#[inline(never)]
pub fn intersperse<W: Way>(n: u64) -> u64 {
    W::drained(Itertools::intersperse(0..n, 7))
}

#[inline(never)]
pub fn merge_by<W: Way>(n: u64) -> u64 {
    let odd = (0..n / 2).map(|x| 2 * x + 1);
    W::drained((0..n / 2).map(|x| 2 * x).merge_by(odd, |x, y| x <= y))
}

#[inline(never)]
pub fn zip_longest<W: Way>(n: u64) -> u64 {
    W::drained((0..n).zip_longest(0..n / 2).map(|both| match both {
        EitherOrBoth::Both(x, y) => x ^ (y << 1),
        EitherOrBoth::Left(x) | EitherOrBoth::Right(x) => x,
    }))
}

#[inline(never)]
pub fn pad_using<W: Way>(n: u64) -> u64 {
    W::drained((0..n / 2).pad_using(n as usize, |index| index as u64))
}

// This `itertools` has none: std's `take_while` with a flag.
#[inline(never)]
pub fn take_while_inclusive<W: Way>(n: u64) -> u64 {
    let mut taking = true;
    W::drained((0..n).take_while(move |x| {
        let taken = taking;
        taking = taking && *x < u64::MAX;
        taken
    }))
}

#[inline(never)]
pub fn minmax<W: Way>(n: u64) -> u64 {
    match (0..n).map(|x| mixed(x, 1)).minmax() {
        MinMaxResult::NoElements => 0,
        MinMaxResult::OneElement(x) => x,
        MinMaxResult::MinMax(x, y) => x ^ y,
    }
}

#[inline(never)]
pub fn minmax_by<W: Way>(n: u64) -> u64 {
    match (0..n).map(|x| scattered(x + 1)).minmax_by(|x, y| x.cmp(y)) {
        MinMaxResult::NoElements => 0,
        MinMaxResult::OneElement(x) => x,
        MinMaxResult::MinMax(x, y) => x ^ y,
    }
}

#[inline(never)]
pub fn minmax_by_key<W: Way>(n: u64) -> u64 {
    match (0..n).minmax_by_key(|x| scattered(*x + 1)) {
        MinMaxResult::NoElements => 0,
        MinMaxResult::OneElement(x) => x,
        MinMaxResult::MinMax(x, y) => x ^ y,
    }
}

#[inline(never)]
pub fn position_max<W: Way>(n: u64) -> u64 {
    (0..n).map(|x| scattered(x + 1)).position_max().map_or(0, |place| place as u64)
}

// `itertools` has none: std's `try_fold`.
#[inline(never)]
pub fn checked_sum<W: Way>(n: u64) -> u64 {
    (0..n).map(|x| mixed(x, 1) >> 32).try_fold(0u64, u64::checked_add).unwrap_or(0)
}

#[inline(never)]
pub fn counts<W: Way>(n: u64) -> u64 {
    let counts = (0..n).map(|x| x % 1000).counts();
    (0..1000).fold(0, |value, key| mixed(value, counts.get(&key).copied().unwrap_or(0) as u64))
}

#[inline(never)]
pub fn join<W: Way>(n: u64) -> u64 {
    let text = (0..n).join(", ");
    text.bytes().fold(0, |value, x| mixed(value, u64::from(x)))
}

#[inline(never)]
pub fn k_smallest_100<W: Way>(n: u64) -> u64 {
    (0..n).map(move |x| n - x).k_smallest(100).fold(0, mixed)
}

#[inline(never)]
pub fn k_smallest_10000<W: Way>(n: u64) -> u64 {
    (0..n).map(move |x| n - x).k_smallest(10_000).fold(0, mixed)
}

#[inline(never)]
pub fn k_smallest_100000<W: Way>(n: u64) -> u64 {
    (0..n).map(move |x| n - x).k_smallest(100_000).fold(0, mixed)
}

#[inline(never)]
pub fn k_smallest_scattered_100<W: Way>(n: u64) -> u64 {
    (0..n).map(|x| scattered(x)).k_smallest(100).fold(0, mixed)
}

#[inline(never)]
pub fn k_smallest_scattered_1000<W: Way>(n: u64) -> u64 {
    (0..n).map(|x| scattered(x)).k_smallest(1000).fold(0, mixed)
}

#[inline(never)]
pub fn k_smallest_scattered_10000<W: Way>(n: u64) -> u64 {
    (0..n).map(|x| scattered(x)).k_smallest(10_000).fold(0, mixed)
}

#[inline(never)]
pub fn dedup_by<W: Way>(n: u64) -> u64 {
    W::drained((0..n).dedup_by(|x, y| x / 4 == y / 4))
}

#[inline(never)]
pub fn dedup_with_count<W: Way>(n: u64) -> u64 {
    W::drained((0..n).map(|x| x / 4).dedup_with_count().map(|(count, x)| x ^ count as u64))
}

#[inline(never)]
pub fn dedup_by_with_count<W: Way>(n: u64) -> u64 {
    W::drained((0..n).dedup_by_with_count(|x, y| x / 4 == y / 4).map(|(count, x)| x ^ count as u64))
}

#[inline(never)]
pub fn with_position<W: Way>(n: u64) -> u64 {
    W::drained((0..n).with_position().map(|placed| match placed {
        Position::Middle(x) => x,
        Position::First(x) | Position::Last(x) | Position::Only(x) => !x,
    }))
}

#[inline(never)]
pub fn tuples<W: Way>(n: u64) -> u64 {
    W::drained((0..n).tuples().map(|(x, y)| x ^ (y << 1)))
}

#[inline(never)]
pub fn copied<W: Way>(n: u64) -> u64 {
    let all: Vec<u64> = (0..n).collect();
    W::drained(all.iter().copied())
}

// Over items that can't fail it is the range itself, as what stands below for failures is.
#[inline(never)]
pub fn inspect_err<W: Way>(n: u64) -> u64 {
    W::drained(0..n)
}

#[inline(never)]
pub fn err_into<W: Way>(n: u64) -> u64 {
    W::drained(0..n)
}

// std's `filter_map`.
#[inline(never)]
pub fn or_else<W: Way>(n: u64) -> u64 {
    W::drained((0..n).map(|x| if x % 3 == 0 { Err(x) } else { Ok(x) }).filter_map(Result::ok))
}

// std's `fuse`.
#[inline(never)]
pub fn fuse_at_failure<W: Way>(n: u64) -> u64 {
    W::drained((0..n).fuse())
}

// std's `fuse`.
#[inline(never)]
pub fn stop_after<W: Way>(n: u64) -> u64 {
    W::drained((0..n).fuse())
}

#[inline(never)]
pub fn merge<W: Way>(n: u64) -> u64 {
    let odd = (0..n / 2).map(|x| 2 * x + 1);
    W::drained((0..n / 2).map(|x| 2 * x).merge(odd))
}

#[inline(never)]
pub fn merge_join_by<W: Way>(n: u64) -> u64 {
    let thirds = (0..n / 2).map(|x| 3 * x);
    W::drained((0..n / 2).map(|x| 2 * x).merge_join_by(thirds, |x, y| x.cmp(y)).map(one_of))
}

#[inline(never)]
pub fn zip_eq<W: Way>(n: u64) -> u64 {
    W::drained((0..n).zip_eq(0..n).map(|(x, y)| x ^ (y << 1)))
}

#[inline(never)]
pub fn interleave<W: Way>(n: u64) -> u64 {
    W::drained((0..n / 2).interleave(0..n / 2))
}

#[inline(never)]
pub fn intersperse_with<W: Way>(n: u64) -> u64 {
    W::drained(Itertools::intersperse_with(0..n, || 7))
}

#[inline(never)]
pub fn positions<W: Way>(n: u64) -> u64 {
    W::drained((0..n).positions(|x| x % 3 == 0).map(|place| place as u64))
}

#[inline(never)]
pub fn unique<W: Way>(n: u64) -> u64 {
    W::drained((0..n).map(|x| x % 1000).unique())
}

#[inline(never)]
pub fn unique_by<W: Way>(n: u64) -> u64 {
    W::drained((0..n).unique_by(|x| x % 1000))
}

#[inline(never)]
pub fn duplicates<W: Way>(n: u64) -> u64 {
    W::drained((0..n).map(|x| x % 1000).duplicates())
}

#[inline(never)]
pub fn kmerge_8<W: Way>(n: u64) -> u64 {
    let sources = (0..8).map(|first| (0..n / 8).map(move |x| 8 * x + first));
    W::drained(sources.kmerge())
}

#[inline(never)]
pub fn kmerge_by_8<W: Way>(n: u64) -> u64 {
    let sources = (0..8).map(|first| (0..n / 8).map(move |x| 8 * x + first));
    W::drained(sources.kmerge_by(|x, y| x < y))
}

#[inline(never)]
pub fn peeking_take_while<W: Way>(n: u64) -> u64 {
    let mut it = (0..n).peekable();
    W::drained(it.peeking_take_while(|x| *x < u64::MAX))
}

// std's `try_for_each`.
#[inline(never)]
pub fn try_for_each<W: Way>(n: u64) -> u64 {
    let mut value = 0;
    (0..n).try_for_each(|x| Ok::<(), u64>(value = mixed(value, x))).unwrap();
    value
}

// std's `find`.
#[inline(never)]
pub fn try_find<W: Way>(n: u64) -> u64 {
    (0..n).map(|x| scattered(x + 1)).find(|x| *x == 1).unwrap_or(0)
}

// std's `position`.
#[inline(never)]
pub fn try_position<W: Way>(n: u64) -> u64 {
    (0..n).map(|x| mixed(x, 1)).position(|x| x == 1).map_or(0, |place| place as u64)
}

#[inline(never)]
pub fn contains<W: Way>(n: u64) -> u64 {
    u64::from((0..n).map(|x| scattered(x + 1)).contains(&1))
}

#[inline(never)]
pub fn all_equal<W: Way>(n: u64) -> u64 {
    u64::from((0..n).map(move |x| mixed(x, 1) / (n << 10).max(1)).all_equal())
}

// It has none: std's `next` and `all`.
#[inline(never)]
pub fn all_equal_value<W: Way>(n: u64) -> u64 {
    let mut all = (0..n).map(move |x| mixed(x, 1) / (n << 10).max(1));
    let first = all.next();
    match first {
        Some(x) if all.all(|y| y == x) => x,
        _ => 1,
    }
}

#[inline(never)]
pub fn all_unique<W: Way>(n: u64) -> u64 {
    u64::from((0..n).all_unique())
}

#[inline(never)]
pub fn find_position<W: Way>(n: u64) -> u64 {
    let found = (0..n).map(|x| scattered(x + 1)).find_position(|x| *x == 1);
    found.map_or(0, |(place, x)| x ^ place as u64)
}

#[inline(never)]
pub fn find_or_first<W: Way>(n: u64) -> u64 {
    (0..n).map(|x| scattered(x + 1)).find_or_first(|x| *x == 1).unwrap_or(0)
}

#[inline(never)]
pub fn find_or_last<W: Way>(n: u64) -> u64 {
    (0..n).map(|x| scattered(x + 1)).find_or_last(|x| *x == 1).unwrap_or(0)
}

// It has none: std's `try_fold`.
#[inline(never)]
pub fn checked_product<W: Way>(n: u64) -> u64 {
    (0..n).map(|x| 1 + x / (1 << 40)).try_fold(1u64, u64::checked_mul).unwrap_or(0)
}

// std's `sum`.
#[inline(never)]
pub fn sum<W: Way>(n: u64) -> u64 {
    (0..n).map(|x| x as f64).sum::<f64>().to_bits()
}

// std's `product`.
#[inline(never)]
pub fn product<W: Way>(n: u64) -> u64 {
    (0..n).map(|x| 1.0 + x as f64 / 1e12).product::<f64>().to_bits()
}

#[inline(never)]
pub fn fold_while<W: Way>(n: u64) -> u64 {
    (0..n)
        .fold_while(0, |value, x| {
            if x < u64::MAX {
                FoldWhile::Continue(mixed(value, x))
            } else {
                FoldWhile::Done(value)
            }
        })
        .into_inner()
}

// std's `is_sorted`.
#[inline(never)]
pub fn is_sorted<W: Way>(n: u64) -> u64 {
    u64::from((0..n).map(|x| x - x % 3).is_sorted())
}

// std's `is_sorted_by`.
#[inline(never)]
pub fn is_sorted_by<W: Way>(n: u64) -> u64 {
    u64::from((0..n).map(|x| x - x % 3).is_sorted_by(|x, y| x <= y))
}

// std's `is_sorted_by_key`.
#[inline(never)]
pub fn is_sorted_by_key<W: Way>(n: u64) -> u64 {
    u64::from((0..n).is_sorted_by_key(|x| x / 2))
}

#[inline(never)]
pub fn at_most_one<W: Way>(n: u64) -> u64 {
    (0..n).filter(|x| scattered(*x) == 5).at_most_one().map_or(1, |x| x.unwrap_or(0))
}

#[inline(never)]
pub fn exactly_one<W: Way>(n: u64) -> u64 {
    (0..n).filter(|x| scattered(*x) == scattered(7)).exactly_one().unwrap_or(1)
}

#[inline(never)]
pub fn position_min<W: Way>(n: u64) -> u64 {
    (0..n).map(|x| scattered(x + 1)).position_min().map_or(0, |place| place as u64)
}

#[inline(never)]
pub fn counts_by<W: Way>(n: u64) -> u64 {
    let counts = (0..n).counts_by(|x| x % 1000);
    (0..1000).fold(0, |value, key| mixed(value, counts.get(&key).copied().unwrap_or(0) as u64))
}

#[inline(never)]
pub fn into_group_map<W: Way>(n: u64) -> u64 {
    let groups = (0..n).map(|x| (x % 1000, x)).into_group_map();
    (0..1000)
        .fold(0, |value, key| groups.get(&key).into_iter().flatten().copied().fold(value, mixed))
}

#[inline(never)]
pub fn into_group_map_by<W: Way>(n: u64) -> u64 {
    let groups = (0..n).into_group_map_by(|x| x % 1000);
    (0..1000)
        .fold(0, |value, key| groups.get(&key).into_iter().flatten().copied().fold(value, mixed))
}

#[inline(never)]
pub fn fold_by_key<W: Way>(n: u64) -> u64 {
    let values = (0..n).into_grouping_map_by(|x| x % 1000).fold(0, |value, _, x| mixed(value, x));
    (0..1000).fold(0, |value, key| mixed(value, values.get(&key).copied().unwrap_or(0)))
}

// `while_some` and std's `collect`.
#[inline(never)]
pub fn collect_until_failure<W: Way>(n: u64) -> u64 {
    let all: Vec<u64> = (0..n).map(Some).while_some().collect();
    all.into_iter().fold(0, mixed)
}

#[inline(never)]
pub fn partition_map<W: Way>(n: u64) -> u64 {
    let (odd, even): (Vec<u64>, Vec<u64>) =
        (0..n).partition_map(|x| if x % 2 == 1 { Either::Left(x) } else { Either::Right(x) });
    even.into_iter().fold(odd.into_iter().fold(0, mixed), mixed)
}

#[inline(never)]
pub fn partition_failures<W: Way>(n: u64) -> u64 {
    let (items, failures): (Vec<u64>, Vec<u64>) =
        (0..n).map(|x| if x % 3 == 0 { Err(x) } else { Ok(x) }).partition_result();
    failures.into_iter().fold(items.into_iter().fold(0, mixed), mixed)
}

#[inline(never)]
pub fn sorted<W: Way>(n: u64) -> u64 {
    (0..n).map(scattered).sorted().fold(0, mixed)
}

#[inline(never)]
pub fn sorted_by<W: Way>(n: u64) -> u64 {
    (0..n).map(scattered).sorted_by(|x, y| y.cmp(x)).fold(0, mixed)
}

#[inline(never)]
pub fn sorted_by_key<W: Way>(n: u64) -> u64 {
    (0..n).map(scattered).sorted_by_key(|x| !x).fold(0, mixed)
}

#[inline(never)]
pub fn sorted_unstable<W: Way>(n: u64) -> u64 {
    (0..n).map(scattered).sorted_unstable().fold(0, mixed)
}

#[inline(never)]
pub fn sorted_unstable_by<W: Way>(n: u64) -> u64 {
    (0..n).map(scattered).sorted_unstable_by(|x, y| y.cmp(x)).fold(0, mixed)
}

#[inline(never)]
pub fn sorted_unstable_by_key<W: Way>(n: u64) -> u64 {
    (0..n).map(scattered).sorted_unstable_by_key(|x| !x).fold(0, mixed)
}

// It has none: a `VecDeque` by a loop.
#[inline(never)]
pub fn tail_100<W: Way>(n: u64) -> u64 {
    last_of(0..n, 100)
}

// It has none: a `VecDeque` by a loop.
#[inline(never)]
pub fn tail_10000<W: Way>(n: u64) -> u64 {
    last_of(0..n, 10_000)
}

// std's `cmp`.
#[inline(never)]
pub fn cmp_by<W: Way>(n: u64) -> u64 {
    let all: Vec<u64> = (0..n).collect();
    let other = all.clone();
    all.into_iter().cmp(other) as u64
}

// std's `eq`.
#[inline(never)]
pub fn eq_by<W: Way>(n: u64) -> u64 {
    let all: Vec<u64> = (0..n).collect();
    let other = all.clone();
    u64::from(all.into_iter().eq(other))
}
