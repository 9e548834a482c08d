//! Runs a call of `fallible-itertools` over n numbers, or the one of `itertools`, and prints the answer:
//!
//!     rust-bench-itertools ours-fold|ours-next|theirs-fold|theirs-next CALL N
//!     rust-bench-itertools names
mod ours;
mod theirs;

type Call = fn(u64) -> u64;

/// The numbers mixed into one.
fn mixed(value: u64, x: u64) -> u64 {
    (value ^ x).rotate_left(7)
}

/// A number that is as likely one as another.
fn scattered(x: u64) -> u64 {
    let x = (x ^ (x >> 31)).wrapping_mul(0x9E37_79B9_7F4A_7C15);
    x ^ (x >> 29)
}

/// A call's name in a table, and itself: by a fold and by `next`, ours and theirs.
macro_rules! call {
    ($name:literal, $call:ident) => {
        (
            $name,
            [
                ours::$call::<ours::Fold> as Call,
                ours::$call::<ours::Next>,
                theirs::$call::<theirs::Fold>,
                theirs::$call::<theirs::Next>,
            ],
        )
    };
}

const CALLS: &[(&str, [Call; 4])] = &[
    call!("dedup, runs of 4", dedup),
    call!("dedup_by_key, runs of 4", dedup_by_key),
    call!("coalesce, runs of 4", coalesce),
    call!("chunks of 16", chunks_16),
    call!("chunks of 1000", chunks_1000),
    call!("chunk_by, groups of 16", chunk_by),
    call!("tuple_windows", tuple_windows),
    call!("intersperse", intersperse),
    call!("merge_by", merge_by),
    call!("zip_longest", zip_longest),
    call!("pad_using, half missing", pad_using),
    call!("take_while_inclusive", take_while_inclusive),
    call!("minmax", minmax),
    call!("minmax_by", minmax_by),
    call!("minmax_by_key", minmax_by_key),
    call!("position_max", position_max),
    call!("checked_sum", checked_sum),
    call!("counts, 1000 keys", counts),
    call!("join", join),
    call!("k_smallest, 100 of falling", k_smallest_100),
    call!("k_smallest, 10000 of falling", k_smallest_10000),
    call!("k_smallest, 100000 of falling", k_smallest_100000),
    call!("k_smallest, 100 of scattered", k_smallest_scattered_100),
    call!("k_smallest, 1000 of scattered", k_smallest_scattered_1000),
    call!("k_smallest, 10000 of scattered", k_smallest_scattered_10000),
    call!("dedup_by, runs of 4", dedup_by),
    call!("dedup_with_count, runs of 4", dedup_with_count),
    call!("dedup_by_with_count, runs of 4", dedup_by_with_count),
    call!("with_position", with_position),
    call!("tuples", tuples),
    call!("copied", copied),
    call!("inspect_err", inspect_err),
    call!("err_into", err_into),
    call!("or_else, one of three left out", or_else),
    call!("fuse_at_failure", fuse_at_failure),
    call!("stop_after", stop_after),
    call!("merge", merge),
    call!("merge_join_by", merge_join_by),
    call!("zip_eq", zip_eq),
    call!("interleave", interleave),
    call!("intersperse_with", intersperse_with),
    call!("positions", positions),
    call!("unique, 1000 of them", unique),
    call!("unique_by, 1000 of them", unique_by),
    call!("duplicates, 1000 of them", duplicates),
    call!("kmerge of 8", kmerge_8),
    call!("kmerge_by of 8", kmerge_by_8),
    call!("peeking_take_while", peeking_take_while),
    call!("try_for_each", try_for_each),
    call!("try_find", try_find),
    call!("try_position", try_position),
    call!("contains", contains),
    call!("all_equal", all_equal),
    call!("all_equal_value", all_equal_value),
    call!("all_unique", all_unique),
    call!("find_position", find_position),
    call!("find_or_first", find_or_first),
    call!("find_or_last", find_or_last),
    call!("checked_product", checked_product),
    call!("sum of floats", sum),
    call!("product of floats", product),
    call!("fold_while", fold_while),
    call!("is_sorted", is_sorted),
    call!("is_sorted_by", is_sorted_by),
    call!("is_sorted_by_key", is_sorted_by_key),
    call!("at_most_one", at_most_one),
    call!("exactly_one", exactly_one),
    call!("position_min", position_min),
    call!("counts_by, 1000 keys", counts_by),
    call!("into_group_map, 1000 keys", into_group_map),
    call!("into_group_map_by, 1000 keys", into_group_map_by),
    call!("fold_by_key, 1000 keys", fold_by_key),
    call!("collect_until_failure", collect_until_failure),
    call!("partition_map", partition_map),
    call!("partition_failures", partition_failures),
    call!("sorted, scattered", sorted),
    call!("sorted_by, scattered", sorted_by),
    call!("sorted_by_key, scattered", sorted_by_key),
    call!("sorted_unstable, scattered", sorted_unstable),
    call!("sorted_unstable_by, scattered", sorted_unstable_by),
    call!("sorted_unstable_by_key, scattered", sorted_unstable_by_key),
    call!("tail, 100", tail_100),
    call!("tail, 10000", tail_10000),
    call!("cmp_by", cmp_by),
    call!("eq_by", eq_by),
];

fn main() {
    let arguments: Vec<String> = std::env::args().collect();
    if arguments[1] == "names" {
        for (name, _) in CALLS {
            println!("{name}");
        }
        return;
    }
    let way = ["ours-fold", "ours-next", "theirs-fold", "theirs-next"]
        .iter()
        .position(|way| *way == arguments[1])
        .expect("a way");
    let (_, call) = CALLS.iter().find(|(name, _)| *name == arguments[2]).expect("a call");
    println!("{}", call[way](arguments[3].parse().expect("a number")));
}
