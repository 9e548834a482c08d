// The adapters that leave items out by what came before: equal items, equal keys, or all that came once.

use crate::base::Turn;
use crate::base::{FirstTurn, Outcome, Pass, drive_passing};
use core::hash::Hash;
use fallible_iterator::FallibleIterator;
use std::collections::{HashMap, HashSet};

/// Of equal items the first. A set has a clone of each item that was yielded.
#[derive(Clone, Debug)]
#[must_use = "an iterator draws nothing until it is asked"]
pub struct Unique<I: FallibleIterator>
where
    I::Item: Eq + Hash,
{
    pub(crate) it: I,
    // clones of the items that were yielded
    pub(crate) seen: HashSet<I::Item>,
}

impl<I: FallibleIterator> Unique<I>
where
    I::Item: Eq + Hash,
{
    /// Creates it. It draws nothing.
    #[inline(always)]
    pub(crate) fn new(it: I) -> Unique<I> {
        Unique {
            it,
            seen: HashSet::new(),
        }
    }
}

// The fold by turns, by which `try_fold` goes.
impl<I: FallibleIterator> Unique<I>
where
    I::Item: Clone + Eq + Hash,
{
    #[inline(always)]
    fn by_turns<C, R, K: Turn<C, I::Item, R>>(
        &mut self,
        state: &mut C,
        turn: &K,
    ) -> Result<Option<R>, I::Error> {
        drive_passing(&mut self.it, &mut self.seen, &UniquePass, state, turn)
    }
}

impl<I: FallibleIterator> FallibleIterator for Unique<I>
where
    I::Item: Clone + Eq + Hash,
{
    type Item = I::Item;

    type Error = I::Error;

    /// Draws until an item comes that equals none before it, or a failure or an `Ok(None)`.
    fn next(&mut self) -> Result<Option<I::Item>, I::Error> {
        self.by_turns(&mut (), &FirstTurn)
    }

    fn size_hint(&self) -> (usize, Option<usize>) {
        (0, self.it.size_hint().1)
    }

    crate::base::by_drive!(drive);
}

// An item after those before it.
struct UniquePass;

impl<X: Clone + Eq + Hash, E> Pass<HashSet<X>, X, E> for UniquePass {
    type Kept = X;

    type Answer = Outcome<X, E>;

    #[inline(always)]
    fn pass(&self, state: &mut HashSet<X>, item: X) -> Outcome<X, E> {
        if state.contains(&item) {
            Outcome::LeftOut
        } else {
            kept(state, item)
        }
    }
}

// An item that equals none of the set's.
fn kept<X: Clone + Eq + Hash, E>(seen: &mut HashSet<X>, item: X) -> Outcome<X, E> {
    seen.insert(item.clone());
    Outcome::Kept(item)
}

/// The first item of each key. A set has the keys of the items that were yielded.
#[derive(Clone, Debug)]
#[must_use = "an iterator draws nothing until it is asked"]
pub struct UniqueBy<I, K, F>
where
    K: Eq + Hash,
{
    pub(crate) it: I,
    // the keys of the items that were yielded, and the closure
    pub(crate) keying: (HashSet<K>, F),
}

impl<I, K: Eq + Hash, F> UniqueBy<I, K, F> {
    /// Creates it. It draws nothing.
    #[inline(always)]
    pub(crate) fn new(it: I, f: F) -> UniqueBy<I, K, F> {
        UniqueBy {
            it,
            keying: (HashSet::new(), f),
        }
    }
}

// The fold by turns, by which `try_fold` goes.
impl<I: FallibleIterator, K: Eq + Hash, F: FnMut(&I::Item) -> Result<K, I::Error>>
    UniqueBy<I, K, F>
{
    #[inline(always)]
    fn by_turns<C, R, T: Turn<C, I::Item, R>>(
        &mut self,
        state: &mut C,
        turn: &T,
    ) -> Result<Option<R>, I::Error> {
        drive_passing(&mut self.it, &mut self.keying, &KeyPass, state, turn)
    }
}

impl<I: FallibleIterator, K: Eq + Hash, F: FnMut(&I::Item) -> Result<K, I::Error>> FallibleIterator
    for UniqueBy<I, K, F>
{
    type Item = I::Item;

    type Error = I::Error;

    /// Draws until an item comes whose key equals none before it, or a failure or an `Ok(None)`. It calls the closure on each item.
    fn next(&mut self) -> Result<Option<I::Item>, I::Error> {
        self.by_turns(&mut (), &FirstTurn)
    }

    fn size_hint(&self) -> (usize, Option<usize>) {
        (0, self.it.size_hint().1)
    }

    crate::base::by_drive!(drive);
}

// What becomes of an item by its key.
struct KeyPass;

impl<X, E, K: Eq + Hash, F: FnMut(&X) -> Result<K, E>> Pass<(HashSet<K>, F), X, E> for KeyPass {
    type Kept = X;

    type Answer = Outcome<X, E>;

    #[inline(always)]
    fn pass(&self, state: &mut (HashSet<K>, F), item: X) -> Outcome<X, E> {
        match (state.1)(&item) {
            Ok(key) => first_of_key(&mut state.0, key, item),
            Err(e) => Outcome::Failure(e),
        }
    }
}

// An item with its key after those before it.
fn first_of_key<X, E, K: Eq + Hash>(keys: &mut HashSet<K>, key: K, item: X) -> Outcome<X, E> {
    if keys.insert(key) {
        Outcome::Kept(item)
    } else {
        Outcome::LeftOut
    }
}

/// Of equal items the second. A map has the first of equal items, and whether the second was yielded.
#[derive(Clone, Debug)]
#[must_use = "an iterator draws nothing until it is asked"]
pub struct Duplicates<I: FallibleIterator>
where
    I::Item: Eq + Hash,
{
    pub(crate) it: I,
    // the first of equal items, each beside whether one that equals it was yielded
    pub(crate) came: HashMap<I::Item, bool>,
}

impl<I: FallibleIterator> Duplicates<I>
where
    I::Item: Eq + Hash,
{
    /// Creates it. It draws nothing.
    #[inline(always)]
    pub(crate) fn new(it: I) -> Duplicates<I> {
        Duplicates {
            it,
            came: HashMap::new(),
        }
    }
}

// The fold by turns, by which `try_fold` goes.
impl<I: FallibleIterator> Duplicates<I>
where
    I::Item: Eq + Hash,
{
    #[inline(always)]
    fn by_turns<C, R, K: Turn<C, I::Item, R>>(
        &mut self,
        state: &mut C,
        turn: &K,
    ) -> Result<Option<R>, I::Error> {
        drive_passing(&mut self.it, &mut self.came, &SecondPass, state, turn)
    }
}

impl<I: FallibleIterator> FallibleIterator for Duplicates<I>
where
    I::Item: Eq + Hash,
{
    type Item = I::Item;

    type Error = I::Error;

    /// Draws until an item comes that equals exactly one before it, or a failure or an `Ok(None)`.
    fn next(&mut self) -> Result<Option<I::Item>, I::Error> {
        self.by_turns(&mut (), &FirstTurn)
    }

    fn size_hint(&self) -> (usize, Option<usize>) {
        (0, self.it.size_hint().1)
    }

    crate::base::by_drive!(drive);
}

// An item after those before it.
struct SecondPass;

impl<X: Eq + Hash, E> Pass<HashMap<X, bool>, X, E> for SecondPass {
    type Kept = X;

    type Answer = Outcome<X, E>;

    #[inline(always)]
    fn pass(&self, state: &mut HashMap<X, bool>, item: X) -> Outcome<X, E> {
        if let Some(yielded) = state.get_mut(&item) {
            let before = *yielded;
            *yielded = true;
            return unless_yielded(before, item);
        }
        state.insert(item, false);
        Outcome::LeftOut
    }
}

// The item, unless one that equals it was yielded.
fn unless_yielded<X, E>(yielded: bool, item: X) -> Outcome<X, E> {
    if yielded {
        Outcome::LeftOut
    } else {
        Outcome::Kept(item)
    }
}
