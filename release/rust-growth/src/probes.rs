//! Calls that do too much, each in a class that it is above. The check has to find each.
use crate::input::{again, drain, Input, Item, Shape, Way};
use crate::rows::{row, Held, Row, FLAT};
use fallible_iterator::FallibleIterator;
use fallible_itertools::FallibleItertools;

const SCATTERED: &[Shape] = &[Shape::Scattered];

pub const PROBES: &[Row] = &[
    row("a search of all items before", FLAT, Held::All, SCATTERED, searched),
    row("a sort, as flat", FLAT, Held::All, SCATTERED, |s, _| again(s, |it| it.sorted())),
    row("all items, as k", FLAT, Held::K, SCATTERED, |s, _| {
        again(s, |it| it.collect::<Vec<Item>>())
    }),
    row("k items, as few", FLAT, Held::Few, SCATTERED, |s, _| again(s, |it| it.tail(100 * s.k()))),
    row("k clones an item", FLAT, Held::K, SCATTERED, |s, w| {
        drain(w, s.source().map(|x| Ok(vec![x; s.k()])))
    }),
];

/// Keeps each item that is none of those kept.
fn searched(s: Input, _: Way) {
    let mut kept: Vec<Item> = Vec::new();
    again(s, |it| {
        it.for_each(|x| {
            if !kept.contains(&x) {
                kept.push(x);
            }
            Ok(())
        })
    });
}
