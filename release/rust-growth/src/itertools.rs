//! The calls of `fallible-itertools`.
use crate::input::{again, beside, called, drain, kept, told, Failure, Input, Item};
use crate::rows::{row, Held, Row, ANY, EQUALS, FLAT, LOG, LOG_K, ONE, ORDERS, TWO};
use fallible_iterator::{convert, FallibleIterator};
use fallible_itertools::{
    kmerge, kmerge_by, DoubleEndedFallibleItertools, Either, FallibleItertools, FoldWhile,
    PeekingNext,
};
use Held::{All, Few, Keys, Run, K};

/// The numbers of an input as they are, for calls of numbers.
fn numbers(s: Input) -> impl FallibleIterator<Item = u64, Error = Failure> {
    s.source().map(|x| Ok(x.key % 2))
}

pub const ADAPTERS: &[Row] = &[
    row("chunks", FLAT, K, ANY, |s, w| drain(w, s.source().chunks(s.k()))),
    row("chunk_by", FLAT, Run, EQUALS, |s, w| drain(w, s.source().chunk_by(|x| called(x.key)))),
    row("chunks, all kept", FLAT, All, ANY, |s, _| kept(s.source().chunks(s.k()))),
    row("chunk_by, all kept", FLAT, All, EQUALS, |s, _| {
        kept(s.source().chunk_by(|x| called(x.key)))
    }),
    row("dedup", FLAT, Few, EQUALS, |s, w| drain(w, s.source().dedup())),
    row("dedup_by", FLAT, Few, EQUALS, |s, w| drain(w, s.source().dedup_by(|x, y| called(x == y)))),
    row("dedup_by_key", FLAT, Few, EQUALS, |s, w| {
        drain(w, s.source().dedup_by_key(|x| called(x.key)))
    }),
    row("dedup_with_count", FLAT, Few, EQUALS, |s, w| drain(w, s.source().dedup_with_count())),
    row("dedup_by_with_count", FLAT, Few, EQUALS, |s, w| {
        drain(w, s.source().dedup_by_with_count(|x, y| called(x == y)))
    }),
    row("coalesce", FLAT, Few, EQUALS, |s, w| {
        drain(w, s.source().coalesce(|x, y| called(if x == y { Ok(x) } else { Err((x, y)) })))
    }),
    row("unique", FLAT, Keys, EQUALS, |s, w| drain(w, s.source().unique())),
    row("unique_by", FLAT, Keys, EQUALS, |s, w| drain(w, s.source().unique_by(|x| called(x.key)))),
    row("duplicates", FLAT, Keys, EQUALS, |s, w| drain(w, s.source().duplicates())),
    row("with_position", FLAT, Few, ANY, |s, w| drain(w, s.source().with_position())),
    row("tuple_windows", FLAT, Few, ANY, |s, w| drain(w, s.source().tuple_windows())),
    row("tuples", FLAT, Few, ANY, |s, w| drain(w, s.source().tuples())),
    row("intersperse", FLAT, Few, ANY, |s, w| drain(w, s.source().intersperse(Item::default()))),
    row("intersperse_with", FLAT, Few, ANY, |s, w| {
        drain(w, s.source().intersperse_with(|| called(Item::default())))
    }),
    row("positions", FLAT, Few, ANY, |s, w| {
        drain(w, s.source().positions(|x| called(x.key % 3 == 0)))
    }),
    row("take_while_inclusive", FLAT, Few, ANY, |s, w| {
        drain(w, s.source().take_while_inclusive(|_| called(true)))
    }),
    row("peeking_take_while", FLAT, Few, ANY, |s, w| {
        drain(w, s.source().peekable().peeking_take_while(|_| called(true)))
    }),
    row("copied", FLAT, All, ONE, |s, w| {
        let all: Vec<u64> = (0..s.n).collect();
        drain(w, convert(all.iter().map(Ok::<_, Failure>)).copied())
    }),
    row("inspect_err", FLAT, Few, ANY, |s, w| drain(w, s.source().inspect_err(|_| told(())))),
    row("err_into", FLAT, Few, ANY, |s, w| drain(w, s.source().err_into::<Failure>())),
    row("map_err_with_index", FLAT, Few, ANY, |s, w| {
        drain(w, s.source().map_err_with_index(|_, e| told(e)))
    }),
    row("or_else", FLAT, Few, ANY, |s, w| drain(w, s.source().or_else(|_| called(None::<Item>)))),
    row("fuse_at_failure", FLAT, Few, ANY, |s, w| drain(w, s.source().fuse_at_failure())),
    row("stop_after", FLAT, Few, ANY, |s, w| drain(w, s.source().stop_after(s.k()))),
    row("pad_using", FLAT, Few, ANY, |s, w| {
        drain(w, s.source().pad_using(2 * s.n(), |_| called(Item::default())))
    }),
    row("merge", FLAT, Few, TWO, |s, w| drain(w, s.first().merge(s.second()))),
    row("merge_by", FLAT, Few, TWO, |s, w| {
        drain(w, s.first().merge_by(s.second(), |x, y| called(x <= y)))
    }),
    row("merge_join_by", FLAT, Few, TWO, |s, w| {
        drain(w, s.first().merge_join_by(s.second(), |x, y| called(x.cmp(y))))
    }),
    row("zip_longest", FLAT, Few, TWO, |s, w| drain(w, s.first().zip_longest(s.second()))),
    row("zip_eq", FLAT, Few, TWO, |s, w| drain(w, s.first().zip_eq(s.first(), || told(Failure)))),
    row("interleave", FLAT, Few, TWO, |s, w| drain(w, s.first().interleave(s.second()))),
    row("kmerge", LOG_K, K, TWO, |s, w| drain(w, kmerge(s.sources()))),
    row("kmerge_by", LOG_K, K, TWO, |s, w| {
        drain(w, kmerge_by(s.sources(), |x: &Item, y: &Item| called(x <= y)))
    }),
];

pub const CONSUMERS: &[Row] = &[
    row("counts", FLAT, Keys, EQUALS, |s, _| again(s, |it| it.counts())),
    row("counts_by", FLAT, Keys, EQUALS, |s, _| again(s, |it| it.counts_by(|x| called(x.key)))),
    row("into_group_map", FLAT, All, EQUALS, |s, _| {
        again(s, |it| it.map(|x| called((x.key, x))).into_group_map())
    }),
    row("into_group_map_by", FLAT, All, EQUALS, |s, _| {
        again(s, |it| it.into_group_map_by(|x| called(x.key)))
    }),
    row("fold_by_key", FLAT, Keys, EQUALS, |s, _| {
        again(s, |it| it.fold_by_key(|x| called(x.key), Item::default(), |_, x| called(x)))
    }),
    row("all_unique", FLAT, Keys, ORDERS, |s, _| again(s, |it| it.all_unique())),
    row("all_equal", FLAT, Few, EQUALS, |s, _| again(s, |it| it.all_equal())),
    row("all_equal_value", FLAT, Few, EQUALS, |s, _| again(s, |it| it.all_equal_value())),
    row("contains", FLAT, Few, EQUALS, |s, _| {
        let wanted = Item { key: u64::MAX, ..Item::default() };
        again(s, |it| it.contains(&wanted))
    }),
    row("sorted", LOG, All, ORDERS, |s, _| again(s, |it| it.sorted())),
    row("sorted_by", LOG, All, ORDERS, |s, _| {
        again(s, |it| it.sorted_by(|x, y| told(x.key.cmp(&y.key))))
    }),
    row("sorted_by_key", LOG, All, ORDERS, |s, _| again(s, |it| it.sorted_by_key(|x| told(x.key)))),
    row("sorted_unstable", LOG, All, ORDERS, |s, _| again(s, |it| it.sorted_unstable())),
    row("sorted_unstable_by", LOG, All, ORDERS, |s, _| {
        again(s, |it| it.sorted_unstable_by(|x, y| told(x.key.cmp(&y.key))))
    }),
    row("sorted_unstable_by_key", LOG, All, ORDERS, |s, _| {
        again(s, |it| it.sorted_unstable_by_key(|x| told(x.key)))
    }),
    row("k_smallest", LOG_K, K, ORDERS, |s, _| again(s, |it| it.k_smallest(s.k()))),
    row("tail", FLAT, K, ANY, |s, _| again(s, |it| it.tail(s.k()))),
    row("minmax", FLAT, Few, ORDERS, |s, _| again(s, |it| it.minmax())),
    row("minmax_by", FLAT, Few, ORDERS, |s, _| {
        again(s, |it| it.minmax_by(|x, y| called(x.cmp(y))))
    }),
    row("minmax_by_key", FLAT, Few, ORDERS, |s, _| {
        again(s, |it| it.minmax_by_key(|x| called(x.key)))
    }),
    row("position_max", FLAT, Few, ORDERS, |s, _| again(s, |it| it.position_max())),
    row("position_min", FLAT, Few, ORDERS, |s, _| again(s, |it| it.position_min())),
    row("is_sorted", FLAT, Few, ORDERS, |s, _| again(s, |it| it.is_sorted())),
    row("is_sorted_by", FLAT, Few, ORDERS, |s, _| {
        again(s, |it| it.is_sorted_by(|x, y| called(x <= y)))
    }),
    row("is_sorted_by_key", FLAT, Few, ORDERS, |s, _| {
        again(s, |it| it.is_sorted_by_key(|x| called(x.key)))
    }),
    row("join", FLAT, All, ANY, |s, _| again(s, |it| it.join(", "))),
    row("collect_until_failure", FLAT, All, ANY, |s, _| {
        again(s, |it| match it.collect_until_failure::<Vec<Item>>() {
            (_, Some(failure)) => Err(failure),
            (all, None) => Ok(all),
        })
    }),
    row("partition_map", FLAT, All, ANY, |s, _| {
        again(s, |it| {
            it.partition_map::<Vec<Item>, Vec<Item>, _, _, _>(|x| {
                called(if x.key % 2 == 0 { Either::Left(x) } else { Either::Right(x) })
            })
        })
    }),
    row("partition_failures", FLAT, All, ANY, |s, _| {
        let _: (Vec<Item>, Vec<Failure>) = s.source().partition_failures();
    }),
    row("at_most_one", FLAT, Few, ANY, |s, _| {
        again(s, |it| it.filter(|x| called(x.key == u64::MAX)).at_most_one())
    }),
    row("exactly_one", FLAT, Few, ANY, |s, _| {
        again(s, |it| it.filter(|x| called(x.key == u64::MAX)).exactly_one())
    }),
    row("find_position", FLAT, Few, ANY, |s, _| again(s, |it| it.find_position(|_| called(false)))),
    row("find_or_first", FLAT, Few, ANY, |s, _| again(s, |it| it.find_or_first(|_| called(false)))),
    row("find_or_last", FLAT, Few, ANY, |s, _| again(s, |it| it.find_or_last(|_| called(false)))),
    row("try_for_each", FLAT, Few, ANY, |s, _| again(s, |it| it.try_for_each(|_| called(())))),
    row("try_find", FLAT, Few, ANY, |s, _| again(s, |it| it.try_find(|_| called(false)))),
    row("try_position", FLAT, Few, ANY, |s, _| again(s, |it| it.try_position(|_| called(false)))),
    row("fold_while", FLAT, Few, ANY, |s, _| {
        again(s, |it| it.fold_while((), |(), _| called(FoldWhile::Continue(()))))
    }),
    row("cmp_by", FLAT, Few, ANY, |s, _| {
        beside(s, |it, other| it.cmp_by(other, |x, y| called(x.cmp(&y))))
    }),
    row("eq_by", FLAT, Few, ANY, |s, _| {
        beside(s, |it, other| it.eq_by(other, |x, y| called(x == y)))
    }),
    row("checked_sum", FLAT, Few, ANY, |s, _| again(s, |it| it.map(|x| Ok(x.key)).checked_sum())),
    row("checked_product", FLAT, Few, ANY, |s, _| {
        again(s, |it| it.map(|_| Ok(1_u64)).checked_product())
    }),
    row("sum", FLAT, Few, ANY, |s, _| {
        let _ = numbers(s).sum::<u64>();
    }),
    row("product", FLAT, Few, ANY, |s, _| {
        let _ = numbers(s).product::<u64>();
    }),
    row("nth_back", FLAT, Few, ANY, |s, _| {
        again(s, |it| loop {
            if it.nth_back(s.k())?.is_none() {
                return Ok(());
            }
        })
    }),
    row("rfind", FLAT, Few, ANY, |s, _| again(s, |it| it.rfind(|_| called(false)))),
    row("rposition", FLAT, Few, ANY, |s, _| again(s, |it| it.rposition(|_| called(false)))),
];
