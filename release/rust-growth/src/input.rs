//! The inputs: shapes of items, and sources of them.
use crate::counting::{count, made_by_source, CLONES, CLOSURES, COMPARED, DRAWS};
use fallible_iterator::{DoubleEndedFallibleIterator, FallibleIterator};
use std::cmp::Ordering;
use std::hash::{Hash, Hasher};

/// A failure of a source.
#[derive(Clone, Debug, PartialEq)]
pub struct Failure;

/// An item, which counts its clones and how often it is compared or hashed.
#[derive(Debug, Default)]
pub struct Item {
    pub key: u64,
    pub text: String,
}

impl Clone for Item {
    fn clone(&self) -> Item {
        count(CLONES);
        Item { key: self.key, text: self.text.clone() }
    }
}

impl PartialEq for Item {
    fn eq(&self, other: &Item) -> bool {
        count(COMPARED);
        self.key == other.key
    }
}

impl Eq for Item {}

impl PartialOrd for Item {
    fn partial_cmp(&self, other: &Item) -> Option<Ordering> {
        Some(self.cmp(other))
    }
}

impl Ord for Item {
    fn cmp(&self, other: &Item) -> Ordering {
        count(COMPARED);
        self.key.cmp(&other.key)
    }
}

impl Hash for Item {
    fn hash<H: Hasher>(&self, state: &mut H) {
        count(COMPARED);
        self.key.hash(state)
    }
}

impl std::fmt::Display for Item {
    fn fmt(&self, f: &mut std::fmt::Formatter<'_>) -> std::fmt::Result {
        write!(f, "{}{}", self.key % 10, self.text)
    }
}

/// Which keys items have, one after another, or what else is said of them.
#[derive(Clone, Copy, Debug, PartialEq)]
pub enum Shape {
    /// Rising keys, all different.
    Different,
    /// Falling keys, all different.
    Falling,
    /// Keys in no order, all different.
    Scattered,
    /// One key.
    Equal,
    /// k keys, in turn.
    Keys,
    /// Runs of k equal keys.
    Runs,
    /// Runs of k equal keys and of one in turn.
    Uneven,
    /// Rising keys, in items of 1,000 bytes.
    Long,
    /// Rising keys, and a failure after each item.
    Failing,
    /// Of sources whose keys take turns.
    Interleaved,
    /// Of sources whose keys are mixed in no order.
    Mixed,
    /// Of sources each of which has greater keys than the one before.
    OneAfterAnother,
    /// Of sources of which the first has all items.
    FirstHasAll,
}

impl Shape {
    pub fn name(self) -> &'static str {
        match self {
            Shape::Different => "rising",
            Shape::Falling => "falling",
            Shape::Scattered => "scattered",
            Shape::Equal => "equal",
            Shape::Keys => "k keys",
            Shape::Runs => "runs of k",
            Shape::Uneven => "runs of k and of one",
            Shape::Long => "long items",
            Shape::Failing => "failures",
            Shape::Interleaved => "interleaved",
            Shape::Mixed => "mixed",
            Shape::OneAfterAnother => "one after another",
            Shape::FirstHasAll => "the first has all",
        }
    }
}

/// A shape with its numbers: so many items, and k.
#[derive(Clone, Copy, Debug)]
pub struct Input {
    pub shape: Shape,
    pub n: u64,
    pub k: u64,
}

/// A number that is as likely one as another, another for each.
pub fn scattered(x: u64) -> u64 {
    let x = (x ^ (x >> 31)).wrapping_mul(0x9E37_79B9_7F4A_7C15);
    x ^ (x >> 29)
}

impl Input {
    fn key(self, place: u64) -> u64 {
        match self.shape {
            Shape::Falling => self.n - place,
            Shape::Scattered => scattered(place),
            Shape::Equal => 0,
            Shape::Keys => place % self.k,
            Shape::Runs => place / self.k,
            Shape::Uneven => (place + 1) / (self.k + 1) + place / (self.k + 1),
            _ => place,
        }
    }

    fn item(self, key: u64) -> Item {
        let length = if self.shape == Shape::Long { 1000 } else { 0 };
        made_by_source(|| Item { key, text: "x".repeat(length) })
    }

    /// One source of all items.
    pub fn source(self) -> Source {
        Source { keys: Keys::Of(self), left: 0..self.n, input: self, fails: false }
    }

    /// One of so many sources of all items, each in order.
    pub fn part(self, which: u64, of: u64) -> Source {
        let each = self.n / of;
        let keys = match self.shape {
            Shape::Mixed => Keys::Mixed { of, which },
            Shape::OneAfterAnother => Keys::From(which * each),
            Shape::Equal => Keys::Equal,
            _ => Keys::InTurn { of, which },
        };
        let count = match (self.shape, which) {
            (Shape::FirstHasAll, 0) => self.n,
            (Shape::FirstHasAll, _) => 0,
            _ => each,
        };
        Source { keys, left: 0..count, input: self, fails: false }
    }

    /// The first and the second of two sources.
    pub fn first(self) -> Source {
        self.part(0, 2)
    }

    pub fn second(self) -> Source {
        self.part(1, 2)
    }

    /// k sources of all items.
    pub fn sources(self) -> Vec<Source> {
        made_by_source(|| (0..self.k).map(|which| self.part(which, self.k)).collect())
    }

    pub fn k(self) -> usize {
        self.k as usize
    }

    pub fn n(self) -> usize {
        self.n as usize
    }
}

#[derive(Clone, Debug)]
enum Keys {
    Of(Input),
    InTurn { of: u64, which: u64 },
    Mixed { of: u64, which: u64 },
    From(u64),
    Equal,
}

/// A source, which counts its draws.
#[derive(Debug)]
pub struct Source {
    keys: Keys,
    left: std::ops::Range<u64>,
    input: Input,
    fails: bool,
}

impl Clone for Source {
    fn clone(&self) -> Source {
        count(CLONES);
        Source {
            keys: self.keys.clone(),
            left: self.left.clone(),
            input: self.input,
            fails: self.fails,
        }
    }
}

impl Source {
    fn item(&self, place: u64) -> Item {
        self.input.item(match self.keys {
            Keys::Of(input) => input.key(place),
            Keys::InTurn { of, which } => place * of + which,
            Keys::Mixed { of, which } => place * of + scattered(place * of + which) % (4 * of),
            Keys::From(first) => first + place,
            Keys::Equal => 0,
        })
    }

    /// Whether a failure is due. It comes after each item, where the shape has failures.
    fn failure_due(&mut self) -> bool {
        count(DRAWS);
        let due = self.fails;
        self.fails = !due && self.input.shape == Shape::Failing && !self.left.is_empty();
        due
    }
}

impl FallibleIterator for Source {
    type Item = Item;
    type Error = Failure;

    fn next(&mut self) -> Result<Option<Item>, Failure> {
        if self.failure_due() {
            return Err(Failure);
        }
        Ok(self.left.next().map(|place| self.item(place)))
    }

    fn size_hint(&self) -> (usize, Option<usize>) {
        self.left.size_hint()
    }
}

impl DoubleEndedFallibleIterator for Source {
    fn next_back(&mut self) -> Result<Option<Item>, Failure> {
        if self.failure_due() {
            return Err(Failure);
        }
        Ok(self.left.next_back().map(|place| self.item(place)))
    }
}

/// A closure's result, with its call counted.
pub fn called<T>(value: T) -> Result<T, Failure> {
    count(CLOSURES);
    Ok(value)
}

/// The same of a closure that can't fail.
pub fn told<T>(value: T) -> T {
    count(CLOSURES);
    value
}

/// Asks a consumer again after each failure.
pub fn again<T>(input: Input, mut consume: impl FnMut(&mut Source) -> Result<T, Failure>) {
    let mut source = input.source();
    while consume(&mut source).is_err() {}
}

/// Compares a source with another of the same items, which never fails. After a failure it compares what is left.
pub fn beside<T>(input: Input, compare: impl Fn(&mut Source, &mut Source) -> Result<T, Failure>) {
    let shape = if input.shape == Shape::Failing { Shape::Different } else { input.shape };
    let mut other = Input { shape, ..input }.source();
    again(input, |it| compare(it, &mut other));
}

/// How an adapter is drained.
#[derive(Clone, Copy, PartialEq)]
pub enum Way {
    Fold,
    Next,
}

/// Drains an adapter, past each failure.
pub fn drain<I: FallibleIterator>(way: Way, mut it: I) {
    match way {
        Way::Fold => while it.by_ref().for_each(|_| Ok(())).is_err() {},
        Way::Next => while !matches!(it.next(), Ok(None)) {},
    }
}

/// Keeps all that an adapter yields, past each failure.
pub fn kept<I: FallibleIterator>(mut it: I) {
    let mut all = Vec::new();
    loop {
        match it.next() {
            Ok(Some(x)) => all.push(x),
            Ok(None) => return,
            Err(_) => {}
        }
    }
}
