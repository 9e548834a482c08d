//! Items by their keys: beside them, how often each comes, each key beside its values, and folds of these.

use crate::base::AllocError;
use crate::base::{Collect, Turn};
use crate::base::{Outcome, Pass, drive_passing, passed, pushed};
use alloc::vec::Vec;
use core::hash::Hash;
use core::ops::ControlFlow;
use fallible_iterator::FallibleIterator;
use std::collections::HashMap;

/// Each item of the source beside the key that the closure makes of it. An item on which the closure fails is lost, and its failure is yielded.
pub(crate) struct Keyed<I, F> {
    /// the source
    pub it: I,
    /// the closure
    pub f: F,
}

// The fold by turns, by which `try_fold` goes.
impl<I: FallibleIterator, K, F: FnMut(&I::Item) -> Result<K, I::Error>> Keyed<I, F> {
    #[inline(always)]
    fn by_turns<C, R, T: Turn<C, (K, I::Item), R>>(
        &mut self,
        state: &mut C,
        turn: &T,
    ) -> Result<Option<R>, I::Error> {
        drive_passing(&mut self.it, &mut self.f, &KeyPass, state, turn)
    }
}

impl<I: FallibleIterator, K, F: FnMut(&I::Item) -> Result<K, I::Error>> FallibleIterator
    for Keyed<I, F>
{
    type Item = (K, I::Item);

    type Error = I::Error;

    /// Draws once, and calls the closure on an item.
    fn next(&mut self) -> Result<Option<(K, I::Item)>, I::Error> {
        passed(self.it.next(), &mut self.f, &KeyPass)
    }

    fn size_hint(&self) -> (usize, Option<usize>) {
        self.it.size_hint()
    }

    crate::base::by_drive!(drive);
}

// What becomes of an item by the closure's result.
struct KeyPass;

impl<X, K, E, F: FnMut(&X) -> Result<K, E>> Pass<F, X, E> for KeyPass {
    type Kept = (K, X);

    type Answer = Result<K, E>;

    #[inline(always)]
    fn pass(&self, state: &mut F, item: X) -> Outcome<(K, X), E> {
        match state(&item) {
            Ok(key) => Outcome::Kept((key, item)),
            Err(e) => Outcome::Failure(e),
        }
    }
}

/// A map from each item to the number of times that it was pushed: a collection that `collect` makes. A number wraps at `usize::MAX`.
pub struct Tally<K: Eq + Hash> {
    /// how often each item was pushed
    pub counts: HashMap<K, usize>,
}

// Of equal items the first is the key. Only for a new item an allocation may fail, if no room is spare.
impl<K: Eq + Hash> Collect<K> for Tally<K> {
    fn push_one(&mut self, item: K) -> Result<(), AllocError> {
        if let Some(count) = self.counts.get_mut(&item) {
            *count = count.saturating_add(1);
            return Ok(());
        }
        self.counts.insert(item, 1);
        Ok(())
    }
}

/// A map from each key of the pairs pushed to a `Vec` of its values, in order: a collection that `collect` makes.
pub struct GroupMap<K: Eq + Hash, V> {
    /// the values of each key
    pub groups: HashMap<K, Vec<V>>,
}

// Of equal keys the first is the key. An allocation may fail for a new key, and where the `Vec` of the key is full.
impl<K: Eq + Hash, V> Collect<(K, V)> for GroupMap<K, V> {
    fn push_one(&mut self, item: (K, V)) -> Result<(), AllocError> {
        let (key, value) = item;
        if let Some(values) = self.groups.get_mut(&key) {
            pushed(values, value);
            return Ok(());
        }
        let mut values = Vec::new();
        pushed(&mut values, value);
        self.groups.insert(key, values);
        Ok(())
    }
}

/// The turn of `fold_by_key`, whose state is the map of the values so far, the closure, and what may stand in the place of a value while the closure has that.
pub struct FoldByKeyTurn<B> {
    /// what the fold of each key begins with
    pub init: B,
}

impl<K: Eq + Hash, X, B: Clone, E, F: FnMut(B, X) -> Result<B, E>>
    Turn<(HashMap<K, B>, F, Option<B>), (K, X), E> for FoldByKeyTurn<B>
{
    /// Calls the closure on the value of the key so far and the item, and puts what it returns in the place of that value.
    #[inline(always)]
    fn turn(&self, state: &mut (HashMap<K, B>, F, Option<B>), item: (K, X)) -> ControlFlow<E, ()> {
        let (key, value) = item;
        if let Some(so_far) = state.0.get_mut(&key) {
            let taken = if core::mem::needs_drop::<B>() {
                let in_its_place = match state.2.take() {
                    Some(spare) => spare,
                    None => self.init.clone(),
                };
                core::mem::replace(so_far, in_its_place)
            } else {
                so_far.clone()
            };
            match (state.1)(taken, value) {
                Ok(folded) => {
                    let spare = core::mem::replace(so_far, folded);
                    if core::mem::needs_drop::<B>() {
                        state.2 = Some(spare);
                    }
                    return ControlFlow::Continue(());
                }
                Err(e) => return ControlFlow::Break(e),
            }
        }
        match (state.1)(self.init.clone(), value) {
            Ok(folded) => {
                state.0.insert(key, folded);
                ControlFlow::Continue(())
            }
            Err(e) => ControlFlow::Break(e),
        }
    }
}
