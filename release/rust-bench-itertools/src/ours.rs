//! The calls of `fallible-itertools`.
use crate::{mixed, scattered};
use fallible_iterator::{convert, FallibleIterator};
use fallible_itertools::{
    kmerge, kmerge_by, Either, EitherOrBoth, FallibleItertools, FoldWhile, MinMaxResult,
    PeekingNext, Position,
};

type Failure = u64;

/// A way of draining.
pub trait Way {
    fn drained<I: FallibleIterator<Item = u64, Error = Failure>>(it: I) -> u64;
}

pub struct Fold;

impl Way for Fold {
    fn drained<I: FallibleIterator<Item = u64, Error = Failure>>(it: I) -> u64 {
        it.fold(0, |value: u64, x: u64| Ok(mixed(value, x))).unwrap()
    }
}

pub struct Next;

impl Way for Next {
    fn drained<I: FallibleIterator<Item = u64, Error = Failure>>(mut it: I) -> u64 {
        let mut value = 0;
        while let Some(x) = it.next().unwrap() {
            value = mixed(value, x);
        }
        value
    }
}

fn numbers(n: u64) -> impl FallibleIterator<Item = u64, Error = Failure> {
    convert((0..n).map(Ok))
}

fn one_of(both: EitherOrBoth<u64, u64>) -> u64 {
    match both {
        EitherOrBoth::Both(x, y) => x ^ (y << 1),
        EitherOrBoth::Left(x) | EitherOrBoth::Right(x) => x,
    }
}

#[inline(never)]
pub fn dedup<W: Way>(n: u64) -> u64 {
    W::drained(numbers(n).map(|x| Ok(x / 4)).dedup())
}

#[inline(never)]
pub fn dedup_by_key<W: Way>(n: u64) -> u64 {
    W::drained(numbers(n).dedup_by_key(|x| Ok(*x / 4)))
}

#[inline(never)]
pub fn coalesce<W: Way>(n: u64) -> u64 {
    W::drained(numbers(n).coalesce(|x, y| Ok(if x / 4 == y / 4 { Ok(y) } else { Err((x, y)) })))
}

fn mixed_all(batch: Vec<u64>) -> Result<u64, Failure> {
    Ok(batch.into_iter().fold(0, mixed))
}

#[inline(never)]
pub fn chunks_16<W: Way>(n: u64) -> u64 {
    W::drained(numbers(n).chunks(16).map(mixed_all))
}

#[inline(never)]
pub fn chunks_1000<W: Way>(n: u64) -> u64 {
    W::drained(numbers(n).chunks(1000).map(mixed_all))
}

#[inline(never)]
pub fn chunk_by<W: Way>(n: u64) -> u64 {
    W::drained(numbers(n).chunk_by(|x| Ok(*x / 16)).map(|(_, group)| mixed_all(group)))
}

#[inline(never)]
pub fn tuple_windows<W: Way>(n: u64) -> u64 {
    W::drained(numbers(n).tuple_windows().map(|(x, y)| Ok(x ^ (y << 1))))
}

#[inline(never)]
pub fn intersperse<W: Way>(n: u64) -> u64 {
    W::drained(numbers(n).intersperse(7))
}

#[inline(never)]
pub fn merge_by<W: Way>(n: u64) -> u64 {
    let odd = numbers(n / 2).map(|x| Ok(2 * x + 1));
    W::drained(numbers(n / 2).map(|x| Ok(2 * x)).merge_by(odd, |x, y| Ok(x <= y)))
}

#[inline(never)]
pub fn zip_longest<W: Way>(n: u64) -> u64 {
    W::drained(numbers(n).zip_longest(numbers(n / 2)).map(|both| {
        Ok(match both {
            EitherOrBoth::Both(x, y) => x ^ (y << 1),
            EitherOrBoth::Left(x) | EitherOrBoth::Right(x) => x,
        })
    }))
}

#[inline(never)]
pub fn pad_using<W: Way>(n: u64) -> u64 {
    W::drained(numbers(n / 2).pad_using(n as usize, |index| Ok(index as u64)))
}

#[inline(never)]
pub fn take_while_inclusive<W: Way>(n: u64) -> u64 {
    W::drained(numbers(n).take_while_inclusive(|x| Ok(*x < u64::MAX)))
}

#[inline(never)]
pub fn minmax<W: Way>(n: u64) -> u64 {
    match numbers(n).map(|x| Ok(mixed(x, 1))).minmax().unwrap() {
        MinMaxResult::NoElements => 0,
        MinMaxResult::OneElement(x) => x,
        MinMaxResult::MinMax(x, y) => x ^ y,
    }
}

#[inline(never)]
pub fn minmax_by<W: Way>(n: u64) -> u64 {
    match numbers(n).map(|x| Ok(scattered(x + 1))).minmax_by(|x, y| Ok(x.cmp(y))).unwrap() {
        MinMaxResult::NoElements => 0,
        MinMaxResult::OneElement(x) => x,
        MinMaxResult::MinMax(x, y) => x ^ y,
    }
}

#[inline(never)]
pub fn minmax_by_key<W: Way>(n: u64) -> u64 {
    match numbers(n).minmax_by_key(|x| Ok(scattered(*x + 1))).unwrap() {
        MinMaxResult::NoElements => 0,
        MinMaxResult::OneElement(x) => x,
        MinMaxResult::MinMax(x, y) => x ^ y,
    }
}

#[inline(never)]
pub fn position_max<W: Way>(n: u64) -> u64 {
    numbers(n).map(|x| Ok(scattered(x + 1))).position_max().unwrap().map_or(0, |place| place as u64)
}

#[inline(never)]
pub fn checked_sum<W: Way>(n: u64) -> u64 {
    numbers(n).map(|x| Ok(mixed(x, 1) >> 32)).checked_sum().unwrap().unwrap_or(0)
}

#[inline(never)]
pub fn counts<W: Way>(n: u64) -> u64 {
    let counts = numbers(n).map(|x| Ok(x % 1000)).counts().unwrap();
    (0..1000).fold(0, |value, key| mixed(value, counts.get(&key).copied().unwrap_or(0) as u64))
}

#[inline(never)]
pub fn join<W: Way>(n: u64) -> u64 {
    let text = numbers(n).join(", ").unwrap();
    text.bytes().fold(0, |value, x| mixed(value, u64::from(x)))
}

#[inline(never)]
pub fn k_smallest_100<W: Way>(n: u64) -> u64 {
    let least = numbers(n).map(move |x| Ok(n - x)).k_smallest(100).unwrap();
    least.into_iter().fold(0, mixed)
}

#[inline(never)]
pub fn k_smallest_10000<W: Way>(n: u64) -> u64 {
    let least = numbers(n).map(move |x| Ok(n - x)).k_smallest(10_000).unwrap();
    least.into_iter().fold(0, mixed)
}

#[inline(never)]
pub fn k_smallest_100000<W: Way>(n: u64) -> u64 {
    let least = numbers(n).map(move |x| Ok(n - x)).k_smallest(100_000).unwrap();
    least.into_iter().fold(0, mixed)
}

#[inline(never)]
pub fn k_smallest_scattered_100<W: Way>(n: u64) -> u64 {
    let least = numbers(n).map(|x| Ok(scattered(x))).k_smallest(100).unwrap();
    least.into_iter().fold(0, mixed)
}

#[inline(never)]
pub fn k_smallest_scattered_1000<W: Way>(n: u64) -> u64 {
    let least = numbers(n).map(|x| Ok(scattered(x))).k_smallest(1000).unwrap();
    least.into_iter().fold(0, mixed)
}

#[inline(never)]
pub fn k_smallest_scattered_10000<W: Way>(n: u64) -> u64 {
    let least = numbers(n).map(|x| Ok(scattered(x))).k_smallest(10_000).unwrap();
    least.into_iter().fold(0, mixed)
}

#[inline(never)]
pub fn dedup_by<W: Way>(n: u64) -> u64 {
    W::drained(numbers(n).dedup_by(|x, y| Ok(x / 4 == y / 4)))
}

#[inline(never)]
pub fn dedup_with_count<W: Way>(n: u64) -> u64 {
    W::drained(
        numbers(n).map(|x| Ok(x / 4)).dedup_with_count().map(|(count, x)| Ok(x ^ count as u64)),
    )
}

#[inline(never)]
pub fn dedup_by_with_count<W: Way>(n: u64) -> u64 {
    W::drained(
        numbers(n)
            .dedup_by_with_count(|x, y| Ok(x / 4 == y / 4))
            .map(|(count, x)| Ok(x ^ count as u64)),
    )
}

#[inline(never)]
pub fn with_position<W: Way>(n: u64) -> u64 {
    W::drained(numbers(n).with_position().map(|(place, x)| {
        Ok(match place {
            Position::Middle => x,
            _ => !x,
        })
    }))
}

#[inline(never)]
pub fn tuples<W: Way>(n: u64) -> u64 {
    W::drained(numbers(n).tuples().map(|(x, y)| Ok(x ^ (y << 1))))
}

#[inline(never)]
pub fn copied<W: Way>(n: u64) -> u64 {
    let all: Vec<u64> = (0..n).collect();
    W::drained(convert(all.iter().map(Ok::<&u64, Failure>)).copied())
}

#[inline(never)]
pub fn inspect_err<W: Way>(n: u64) -> u64 {
    W::drained(numbers(n).inspect_err(|_| ()))
}

#[inline(never)]
pub fn err_into<W: Way>(n: u64) -> u64 {
    W::drained(convert((0..n).map(Ok::<u64, u32>)).err_into::<u64>())
}

#[inline(never)]
pub fn or_else<W: Way>(n: u64) -> u64 {
    W::drained(
        convert((0..n).map(|x| if x % 3 == 0 { Err(x) } else { Ok(x) }))
            .or_else(|_| Ok::<Option<u64>, Failure>(None)),
    )
}

#[inline(never)]
pub fn fuse_at_failure<W: Way>(n: u64) -> u64 {
    W::drained(numbers(n).fuse_at_failure())
}

#[inline(never)]
pub fn stop_after<W: Way>(n: u64) -> u64 {
    W::drained(numbers(n).stop_after(3))
}

#[inline(never)]
pub fn merge<W: Way>(n: u64) -> u64 {
    let odd = numbers(n / 2).map(|x| Ok(2 * x + 1));
    W::drained(numbers(n / 2).map(|x| Ok(2 * x)).merge(odd))
}

#[inline(never)]
pub fn merge_join_by<W: Way>(n: u64) -> u64 {
    let thirds = numbers(n / 2).map(|x| Ok(3 * x));
    W::drained(
        numbers(n / 2)
            .map(|x| Ok(2 * x))
            .merge_join_by(thirds, |x, y| Ok(x.cmp(y)))
            .map(|both| Ok(one_of(both))),
    )
}

#[inline(never)]
pub fn zip_eq<W: Way>(n: u64) -> u64 {
    W::drained(numbers(n).zip_eq(numbers(n), || 1).map(|(x, y)| Ok(x ^ (y << 1))))
}

#[inline(never)]
pub fn interleave<W: Way>(n: u64) -> u64 {
    W::drained(numbers(n / 2).interleave(numbers(n / 2)))
}

#[inline(never)]
pub fn intersperse_with<W: Way>(n: u64) -> u64 {
    W::drained(numbers(n).intersperse_with(|| Ok(7)))
}

#[inline(never)]
pub fn positions<W: Way>(n: u64) -> u64 {
    W::drained(numbers(n).positions(|x| Ok(x % 3 == 0)).map(|place| Ok(place as u64)))
}

#[inline(never)]
pub fn unique<W: Way>(n: u64) -> u64 {
    W::drained(numbers(n).map(|x| Ok(x % 1000)).unique())
}

#[inline(never)]
pub fn unique_by<W: Way>(n: u64) -> u64 {
    W::drained(numbers(n).unique_by(|x| Ok(x % 1000)))
}

#[inline(never)]
pub fn duplicates<W: Way>(n: u64) -> u64 {
    W::drained(numbers(n).map(|x| Ok(x % 1000)).duplicates())
}

#[inline(never)]
pub fn kmerge_8<W: Way>(n: u64) -> u64 {
    let sources = (0..8).map(|first| numbers(n / 8).map(move |x| Ok(8 * x + first)));
    W::drained(kmerge(sources))
}

#[inline(never)]
pub fn kmerge_by_8<W: Way>(n: u64) -> u64 {
    let sources = (0..8).map(|first| numbers(n / 8).map(move |x| Ok(8 * x + first)));
    W::drained(kmerge_by(sources, |x: &u64, y: &u64| Ok(x <= y)))
}

#[inline(never)]
pub fn peeking_take_while<W: Way>(n: u64) -> u64 {
    let mut it = numbers(n).peekable();
    W::drained(it.peeking_take_while(|x| Ok(*x < u64::MAX)))
}

#[inline(never)]
pub fn try_for_each<W: Way>(n: u64) -> u64 {
    let mut value = 0;
    numbers(n).try_for_each(|x| Ok::<(), Failure>(value = mixed(value, x))).unwrap();
    value
}

#[inline(never)]
pub fn try_find<W: Way>(n: u64) -> u64 {
    numbers(n)
        .map(|x| Ok(scattered(x + 1)))
        .try_find(|x| Ok::<bool, Failure>(*x == 1))
        .unwrap()
        .unwrap_or(0)
}

#[inline(never)]
pub fn try_position<W: Way>(n: u64) -> u64 {
    numbers(n)
        .map(|x| Ok(mixed(x, 1)))
        .try_position(|x| Ok::<bool, Failure>(x == 1))
        .unwrap()
        .map_or(0, |place| place as u64)
}

#[inline(never)]
pub fn contains<W: Way>(n: u64) -> u64 {
    u64::from(numbers(n).map(|x| Ok(scattered(x + 1))).contains(&1).unwrap())
}

#[inline(never)]
pub fn all_equal<W: Way>(n: u64) -> u64 {
    u64::from(numbers(n).map(move |x| Ok(mixed(x, 1) / (n << 10).max(1))).all_equal().unwrap())
}

#[inline(never)]
pub fn all_equal_value<W: Way>(n: u64) -> u64 {
    numbers(n)
        .map(move |x| Ok(mixed(x, 1) / (n << 10).max(1)))
        .all_equal_value()
        .unwrap()
        .unwrap_or(1)
}

#[inline(never)]
pub fn all_unique<W: Way>(n: u64) -> u64 {
    u64::from(numbers(n).all_unique().unwrap())
}

#[inline(never)]
pub fn find_position<W: Way>(n: u64) -> u64 {
    let found = numbers(n).map(|x| Ok(scattered(x + 1))).find_position(|x| Ok(*x == 1)).unwrap();
    found.map_or(0, |(place, x)| x ^ place as u64)
}

#[inline(never)]
pub fn find_or_first<W: Way>(n: u64) -> u64 {
    numbers(n).map(|x| Ok(scattered(x + 1))).find_or_first(|x| Ok(*x == 1)).unwrap().unwrap_or(0)
}

#[inline(never)]
pub fn find_or_last<W: Way>(n: u64) -> u64 {
    numbers(n).map(|x| Ok(scattered(x + 1))).find_or_last(|x| Ok(*x == 1)).unwrap().unwrap_or(0)
}

#[inline(never)]
pub fn checked_product<W: Way>(n: u64) -> u64 {
    numbers(n).map(|x| Ok(1 + x / (1 << 40))).checked_product().unwrap().unwrap_or(0)
}

#[inline(never)]
pub fn sum<W: Way>(n: u64) -> u64 {
    numbers(n).map(|x| Ok(x as f64)).sum::<f64>().unwrap().to_bits()
}

#[inline(never)]
pub fn product<W: Way>(n: u64) -> u64 {
    numbers(n).map(|x| Ok(1.0 + x as f64 / 1e12)).product::<f64>().unwrap().to_bits()
}

#[inline(never)]
pub fn fold_while<W: Way>(n: u64) -> u64 {
    match numbers(n)
        .fold_while(0, |value, x| {
            Ok(if x < u64::MAX {
                FoldWhile::Continue(mixed(value, x))
            } else {
                FoldWhile::Done(value)
            })
        })
        .unwrap()
    {
        FoldWhile::Continue(value) | FoldWhile::Done(value) => value,
    }
}

#[inline(never)]
pub fn is_sorted<W: Way>(n: u64) -> u64 {
    u64::from(numbers(n).map(|x| Ok(x - x % 3)).is_sorted().unwrap())
}

#[inline(never)]
pub fn is_sorted_by<W: Way>(n: u64) -> u64 {
    u64::from(numbers(n).map(|x| Ok(x - x % 3)).is_sorted_by(|x, y| Ok(x <= y)).unwrap())
}

#[inline(never)]
pub fn is_sorted_by_key<W: Way>(n: u64) -> u64 {
    u64::from(numbers(n).is_sorted_by_key(|x| Ok(x / 2)).unwrap())
}

#[inline(never)]
pub fn at_most_one<W: Way>(n: u64) -> u64 {
    numbers(n)
        .filter(|x| Ok(scattered(*x) == 5))
        .at_most_one()
        .unwrap()
        .map_or(1, |x| x.unwrap_or(0))
}

#[inline(never)]
pub fn exactly_one<W: Way>(n: u64) -> u64 {
    numbers(n).filter(|x| Ok(scattered(*x) == scattered(7))).exactly_one().unwrap().unwrap_or(1)
}

#[inline(never)]
pub fn position_min<W: Way>(n: u64) -> u64 {
    numbers(n).map(|x| Ok(scattered(x + 1))).position_min().unwrap().map_or(0, |place| place as u64)
}

#[inline(never)]
pub fn counts_by<W: Way>(n: u64) -> u64 {
    let counts = numbers(n).counts_by(|x| Ok(x % 1000)).unwrap();
    (0..1000).fold(0, |value, key| mixed(value, counts.get(&key).copied().unwrap_or(0) as u64))
}

#[inline(never)]
pub fn into_group_map<W: Way>(n: u64) -> u64 {
    let groups = numbers(n).map(|x| Ok((x % 1000, x))).into_group_map().unwrap();
    (0..1000)
        .fold(0, |value, key| groups.get(&key).into_iter().flatten().copied().fold(value, mixed))
}

#[inline(never)]
pub fn into_group_map_by<W: Way>(n: u64) -> u64 {
    let groups = numbers(n).into_group_map_by(|x| Ok(x % 1000)).unwrap();
    (0..1000)
        .fold(0, |value, key| groups.get(&key).into_iter().flatten().copied().fold(value, mixed))
}

#[inline(never)]
pub fn fold_by_key<W: Way>(n: u64) -> u64 {
    let values =
        numbers(n).fold_by_key(|x| Ok(x % 1000), 0, |value, x| Ok(mixed(value, x))).unwrap();
    (0..1000).fold(0, |value, key| mixed(value, values.get(&key).copied().unwrap_or(0)))
}

#[inline(never)]
pub fn collect_until_failure<W: Way>(n: u64) -> u64 {
    let (all, why): (Vec<u64>, Option<Failure>) = numbers(n).collect_until_failure();
    all.into_iter().fold(why.unwrap_or(0), mixed)
}

#[inline(never)]
pub fn partition_map<W: Way>(n: u64) -> u64 {
    let (odd, even): (Vec<u64>, Vec<u64>) = numbers(n)
        .partition_map(|x| Ok(if x % 2 == 1 { Either::Left(x) } else { Either::Right(x) }))
        .unwrap();
    even.into_iter().fold(odd.into_iter().fold(0, mixed), mixed)
}

#[inline(never)]
pub fn partition_failures<W: Way>(n: u64) -> u64 {
    let (items, failures): (Vec<u64>, Vec<Failure>) =
        convert((0..n).map(|x| if x % 3 == 0 { Err(x) } else { Ok(x) })).partition_failures();
    failures.into_iter().fold(items.into_iter().fold(0, mixed), mixed)
}

#[inline(never)]
pub fn sorted<W: Way>(n: u64) -> u64 {
    let all = numbers(n).map(|x| Ok(scattered(x))).sorted().unwrap();
    all.into_iter().fold(0, mixed)
}

#[inline(never)]
pub fn sorted_by<W: Way>(n: u64) -> u64 {
    let all = numbers(n).map(|x| Ok(scattered(x))).sorted_by(|x, y| y.cmp(x)).unwrap();
    all.into_iter().fold(0, mixed)
}

#[inline(never)]
pub fn sorted_by_key<W: Way>(n: u64) -> u64 {
    let all = numbers(n).map(|x| Ok(scattered(x))).sorted_by_key(|x| !x).unwrap();
    all.into_iter().fold(0, mixed)
}

#[inline(never)]
pub fn sorted_unstable<W: Way>(n: u64) -> u64 {
    let all = numbers(n).map(|x| Ok(scattered(x))).sorted_unstable().unwrap();
    all.into_iter().fold(0, mixed)
}

#[inline(never)]
pub fn sorted_unstable_by<W: Way>(n: u64) -> u64 {
    let all = numbers(n).map(|x| Ok(scattered(x))).sorted_unstable_by(|x, y| y.cmp(x)).unwrap();
    all.into_iter().fold(0, mixed)
}

#[inline(never)]
pub fn sorted_unstable_by_key<W: Way>(n: u64) -> u64 {
    let all = numbers(n).map(|x| Ok(scattered(x))).sorted_unstable_by_key(|x| !x).unwrap();
    all.into_iter().fold(0, mixed)
}

#[inline(never)]
pub fn tail_100<W: Way>(n: u64) -> u64 {
    let last = numbers(n).tail(100).unwrap();
    last.into_iter().fold(0, mixed)
}

#[inline(never)]
pub fn tail_10000<W: Way>(n: u64) -> u64 {
    let last = numbers(n).tail(10_000).unwrap();
    last.into_iter().fold(0, mixed)
}

#[inline(never)]
pub fn cmp_by<W: Way>(n: u64) -> u64 {
    let all: Vec<u64> = (0..n).collect();
    let other = all.clone();
    convert(all.into_iter().map(Ok::<u64, Failure>))
        .cmp_by(convert(other.into_iter().map(Ok)), |x, y| Ok(x.cmp(&y)))
        .unwrap() as u64
}

#[inline(never)]
pub fn eq_by<W: Way>(n: u64) -> u64 {
    let all: Vec<u64> = (0..n).collect();
    let other = all.clone();
    u64::from(
        convert(all.into_iter().map(Ok::<u64, Failure>))
            .eq_by(convert(other.into_iter().map(Ok)), |x, y| Ok(x == y))
            .unwrap(),
    )
}
