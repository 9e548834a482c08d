//! Each call of fallible-itertools, over numbers.

/// A failure that another one becomes.
pub struct Became<E>(pub E);

impl<E> From<E> for Became<E> {
    fn from(e: E) -> Became<E> {
        Became(e)
    }
}

/// Makes each call over new rows, which are numbers that may fail, and prints what it returns.
#[macro_export]
macro_rules! calls {
    ($source:expr, $shown:path, $rows:expr) => {{
        use std::cmp::Ordering::{Greater, Less};
        use std::collections::BTreeMap;
        use $crate::calls::Became;
        const ONES: [i64; 2] = [1, 11];
        let few = || convert([2i64, 5, 5, 9].into_iter().map(Ok));
        macro_rules! all {
            ($chain:expr) => {
                $chain.collect::<Vec<_>>()
            };
        }
        let mut number = 0;
        let mut say = |call: &str, made: String| {
            number += 1;
            println!("{}, {number}, {call}: {made}", $source);
        };
        macro_rules! say {
            ($call:literal, $made:expr) => {
                say!($call, $made, |e| $shown(e))
            };
            ($call:literal, $made:expr, $told:expr) => {
                say($call, format!("{:?}", $made.map_err($told)))
            };
        }
        say!("coalesce", all!($rows.coalesce(|a, b| Ok(if a == b { Ok(a + b) } else { Err((a, b)) }))));
        say!("dedup_by_key", all!($rows.dedup_by_key(|x| Ok(x / 10))));
        say!("dedup_by", all!($rows.dedup_by(|a, b| Ok(a == b))));
        say!("dedup", all!($rows.dedup()));
        say!("dedup_with_count", all!($rows.dedup_with_count()));
        say!("dedup_by_with_count", all!($rows.dedup_by_with_count(|a, b| Ok(a == b))));
        say!("with_position", all!($rows.with_position()));
        say!("tuple_windows", all!($rows.tuple_windows()));
        say!("tuples", all!($rows.tuples()));
        say!("try_for_each", $rows.try_for_each(|_| Ok::<(), Became<_>>(())).map_err(|e: Became<_>| e.0));
        say!("try_find", $rows.try_find(|x| Ok::<bool, Became<_>>(*x > 5)).map_err(|e: Became<_>| e.0));
        say!("try_position", $rows.try_position(|x| Ok::<bool, Became<_>>(x > 5)).map_err(|e: Became<_>| e.0));
        say!("contains", $rows.contains(&9));
        say!("all_equal", $rows.all_equal());
        say!("all_unique", $rows.all_unique());
        say!("all_equal_value", $rows.all_equal_value());
        say!("find_position", $rows.find_position(|x| Ok(*x > 5)));
        say!("find_or_last", $rows.find_or_last(|x| Ok(*x > 5)));
        say!("find_or_first", $rows.find_or_first(|x| Ok(*x > 5)));
        say!("checked_sum", $rows.checked_sum());
        say!("checked_product", $rows.checked_product());
        say!("sum", $rows.sum::<i64>());
        say!("product", $rows.take(4).product::<i64>());
        say!("fold_while", $rows.fold_while(0, |sum, x| Ok(if x > 8 { FoldWhile::Done(sum) } else { FoldWhile::Continue(sum + x) })).map(FoldWhile::into_inner));
        say!("is_sorted_by_key", $rows.is_sorted_by_key(|x| Ok(x / 10)));
        say!("is_sorted_by", $rows.is_sorted_by(|a, b| Ok(a <= b)));
        say!("is_sorted", $rows.is_sorted());
        say!("copied", all!($rows.map(|x| Ok(&ONES[usize::from(x > 5)])).copied()));
        say!("take_while_inclusive", all!($rows.take_while_inclusive(|x| Ok(*x < 9))));
        let mut failures = 0;
        say!("inspect_err", all!($rows.inspect_err(|_| failures += 1)));
        say("inspect_err", format!("{failures} failures"));
        say!("map_err_with_index", all!($rows.map_err_with_index(|index, e| (index, $shown(e)))), |e| format!("{e:?}"));
        say!("err_into", all!($rows.err_into::<Became<_>>()).map_err(|e| e.0));
        say!("or_else", all!($rows.take(50).or_else(|e| { let _ = $shown(e); Ok::<_, std::convert::Infallible>(Some(0)) }).take(9)).map_err(|never| -> _ { match never {} }));
        say!("fuse_at_failure", all!($rows.fuse_at_failure()));
        say!("stop_after", all!($rows.stop_after(1)));
        say!("merge", all!($rows.merge(few())));
        say!("merge_by", all!($rows.merge_by(few(), |a, b| Ok(a <= b))));
        say!("merge_join_by", all!($rows.merge_join_by(few(), |a, b| Ok(a.cmp(b)))));
        say!("zip_longest", all!($rows.zip_longest(few())));
        let other = || convert([2i64, 5, 5, 9].into_iter().map(Ok));
        say!("zip_eq", all!($rows.map_err(Some).zip_eq(other(), || None)).map_err(|e| e.map_or("unequal".to_string(), |e| $shown(e))), |e| e);
        say!("interleave", all!($rows.interleave(few())));
        say!("pad_using", all!($rows.pad_using(9, |n| Ok(n as i64))));
        say!("at_most_one", $rows.at_most_one());
        say!("exactly_one", $rows.exactly_one());
        say!("position_max", $rows.position_max());
        say!("position_min", $rows.position_min());
        say!("minmax", $rows.minmax());
        say!("minmax_by", $rows.minmax_by(|a, b| Ok(a.cmp(b))));
        say!("minmax_by_key", $rows.minmax_by_key(|x| Ok(x / 10)));
        say!("counts", $rows.counts().map(BTreeMap::from_iter));
        say!("counts_by", $rows.counts_by(|x| Ok(x / 10)).map(BTreeMap::from_iter));
        say!("into_group_map", $rows.map(|x| Ok((x / 10, x))).into_group_map().map(BTreeMap::from_iter));
        say!("into_group_map_by", $rows.into_group_map_by(|x| Ok(x / 10)).map(BTreeMap::from_iter));
        say!("fold_by_key", $rows.fold_by_key(|x| Ok(x / 10), 0, |sum, x| Ok(sum + x)).map(BTreeMap::from_iter));
        let (kept, failure) = $rows.collect_until_failure::<Vec<_>>();
        say("collect_until_failure", format!("{kept:?} {:?}", failure.map(|e| $shown(e))));
        say!("partition_map", $rows.partition_map::<Vec<_>, Vec<_>, _, _, _>(|x| Ok(if x > 5 { Either::Left(x) } else { Either::Right(x) })));
        let (kept, failures): (Vec<_>, Vec<_>) = $rows.stop_after(1).partition_failures();
        say("partition_failures", format!("{kept:?} {:?}", failures.into_iter().map(|e| $shown(e)).collect::<Vec<_>>()));
        say!("sorted", $rows.sorted());
        say!("sorted_by", $rows.sorted_by(|a, b| b.cmp(a)));
        say!("sorted_by_key", $rows.sorted_by_key(|x| x % 10));
        say!("sorted_unstable", $rows.sorted_unstable());
        say!("sorted_unstable_by", $rows.sorted_unstable_by(|a, b| b.cmp(a)));
        say!("sorted_unstable_by_key", $rows.sorted_unstable_by_key(|x| -x));
        say!("join", $rows.join(", "));
        say!("k_smallest", $rows.k_smallest(2));
        say!("tail", $rows.tail(2));
        say!("cmp_by", $rows.cmp_by(few(), |a, b| Ok(if a < b { Less } else { Greater })));
        say!("eq_by", $rows.eq_by(few(), |a, b| Ok(a == b)));
        say!("chunks", all!($rows.chunks(2)));
        say!("chunk_by", all!($rows.chunk_by(|x| Ok(x / 10))));
        say!("intersperse", all!($rows.intersperse(0)));
        say!("intersperse_with", all!($rows.intersperse_with(|| Ok(0))));
        say!("positions", all!($rows.positions(|x| Ok(x > 5))));
        say!("unique", all!($rows.unique()));
        say!("unique_by", all!($rows.unique_by(|x| Ok(x / 10))));
        say!("duplicates", all!($rows.duplicates()));
        let mut rows = $rows.peekable();
        say!("peeking_take_while", all!(rows.peeking_take_while(|x| Ok(*x < 9))));
        say!("next", rows.next());
    }};
}
