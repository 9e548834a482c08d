//! Runs a chain of adapters over n numbers, or the loop written by hand beside it, and prints the answer:
//!
//!     rust-bench fold|next|loop CHAIN N
//!     rust-bench names
mod chains;
mod draining;
mod eight;
mod loops;
mod small;

use chains::{Chained, Converted, Own};
use draining::{Answer, Fold, Next};

type Chain = fn(u64) -> Answer;
type Loop = fn(u64) -> u64;

/// A chain's name in a table, itself by a fold and by `next`, and the loop. A chain whose source is std's alone names no
/// other.
macro_rules! chain {
    ($name:literal, $chain:ident::<$source:ident>, $by_hand:ident) => {
        (
            $name,
            chains::$chain::<Fold, $source>,
            chains::$chain::<Next, $source>,
            loops::$by_hand,
        )
    };
    ($name:literal, $chain:ident, $by_hand:ident) => {
        (
            $name,
            chains::$chain::<Fold>,
            chains::$chain::<Next>,
            loops::$by_hand,
        )
    };
}

/// A chain over small items.
macro_rules! small {
    ($name:literal, $chain:ident) => {
        (
            $name,
            |n| small::answer_over(n, small::$chain::<Fold>),
            |n| small::answer_over(n, small::$chain::<Next>),
            |n| small::value_over(n, small::by_hand::$chain),
        )
    };
}

const CHAINS: [(&str, Chain, Chain, Loop); 40] = [
    chain!("map.filter, count", count::<Converted>, count),
    chain!("map.filter, fold", fold::<Converted>, fold),
    chain!("filter_map", filter_map::<Converted>, filter_map),
    chain!(
        "filter that keeps one of a hundred",
        sparse::<Converted>,
        sparse
    ),
    chain!("chain", chain::<Converted>, chain),
    chain!("flat_map over ranges of 100", flatten::<Converted>, flatten),
    chain!("flat_map over ranges of 1 to 3", short::<Converted>, short),
    chain!(
        "chain.flat_map over ranges of 3",
        chain_flat_map::<Converted>,
        chain_flat_map
    ),
    chain!("skip_while", skip_while::<Converted>, skip_while),
    chain!("take_while.skip.step_by(3)", step_by::<Converted>, step_by),
    chain!("peekable, after a look", peekable::<Converted>, plain),
    chain!("map, collect", collect::<Converted>, collect),
    chain!("map, a fold into eight numbers", eight::<Converted>, eight),
    chain!("one failure in three, map_err", failures, failures),
    chain!("map.filter.iterator(), by std", iterator::<Converted>, fold),
    chain!("zip.map", zip::<Converted>, zip),
    chain!("scan", scan::<Converted>, scan),
    chain!("nest: ten adapters", nest::<Converted>, nest),
    chain!("chains: a chain in a chain", chains::<Converted>, chains),
    chain!("convert of std's chain", plain::<Chained>, plain),
    chain!("std's chain: map.filter, count", count::<Chained>, count),
    chain!("std's chain: map.filter, fold", fold::<Chained>, fold),
    chain!("std's chain: filter_map", filter_map::<Chained>, filter_map),
    chain!("std's chain: map, collect", collect::<Chained>, collect),
    chain!("std's chain: skip_while", skip_while::<Chained>, skip_while),
    chain!("std's chain: nest", nest::<Chained>, nest),
    chain!("std's chain: chains", chains::<Chained>, chains),
    chain!("own source: map.filter, count", count::<Own>, count),
    chain!("own source: map.filter, fold", fold::<Own>, fold),
    chain!("own source: filter_map", filter_map::<Own>, filter_map),
    chain!(
        "own source: chain.flat_map over ranges of 3",
        chain_flat_map::<Own>,
        chain_flat_map
    ),
    chain!(
        "own source: take_while.skip.step_by(3)",
        step_by::<Own>,
        step_by
    ),
    chain!("own source: nest", nest::<Own>, nest),
    small!("small items: map.filter, count", count),
    small!("small items: map.filter, fold", fold),
    small!("small items: filter_map", filter_map),
    small!("small items: chain", chain),
    small!(
        "small items: chain.flat_map over ranges of 3",
        chain_flat_map
    ),
    small!("small items: take_while.skip.step_by(3)", step_by),
    small!("small items: nest", nest),
];

/// The answer of a task, if the arguments are one.
fn answer(words: &[String]) -> Option<Answer> {
    let [way, name, n] = words else { return None };
    let n = n.parse().ok()?;
    let (_, fold, next, by_hand) = CHAINS.iter().find(|chain| chain.0 == name)?;
    match way.as_str() {
        "fold" => Some(fold(n)),
        "next" => Some(next(n)),
        "loop" => Some(Ok(by_hand(n))),
        _ => None,
    }
}

fn main() {
    let words: Vec<String> = std::env::args().skip(1).collect();
    if words == ["names"] {
        CHAINS.iter().for_each(|chain| println!("{}", chain.0));
    } else if let Some(Ok(value)) = answer(&words) {
        println!("{value}");
    } else {
        eprintln!("rust-bench fold|next|loop CHAIN N, or rust-bench names");
        std::process::exit(2);
    }
}
