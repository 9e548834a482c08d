// The adapters that yield batches of items, and groups of adjacent items with equal keys.

use crate::base::Turn;
use crate::base::{alone, pushed};
use crate::fallible_itertools_adapters::staging::{
    AnswerAndDue, Emitted, Stage, Stop, drive_stage, emitted_of, hint_with_held, let_go,
    next_until, one, put_due, stop_answer, with_held,
};
use alloc::vec::Vec;
use core::mem::replace;
use fallible_iterator::FallibleIterator;

/// Batches of n items. A batch before a stop may have fewer. A batch is buffered until it has n items, or a stop comes: `Ok(None)` or a failure, which the next call returns.
#[derive(Clone, Debug)]
#[must_use = "an iterator draws nothing until it is asked"]
pub struct Chunks<I: FallibleIterator> {
    pub(crate) it: I,
    // how many items a batch has, the buffered batch, if it has any, and whether the batch before it was whole, or there was none; and the stop that is due: `Ok(None)`, or a failure
    pub(crate) stage: (
        ((usize, Option<Vec<I::Item>>), bool),
        Option<Stop<I::Error>>,
    ),
}

impl<I: FallibleIterator> Chunks<I> {
    /// Creates it. It draws nothing.
    #[inline(always)]
    pub(crate) fn new(it: I, n: usize) -> Chunks<I> {
        assert!(n != 0);
        Chunks {
            it,
            stage: (((n, None), true), None),
        }
    }
}

// The fold by turns, by which `try_fold` goes.
impl<I: FallibleIterator> Chunks<I> {
    #[inline(always)]
    fn by_turns<C, R, K: Turn<C, Vec<I::Item>, R>>(
        &mut self,
        state: &mut C,
        turn: &K,
    ) -> Result<Option<R>, I::Error> {
        let adapter = ChunksStage;
        drive_stage(&mut self.it, &mut self.stage, &adapter, state, turn)
    }
}

impl<I: FallibleIterator> FallibleIterator for Chunks<I> {
    type Item = Vec<I::Item>;

    type Error = I::Error;

    /// Returns the stop that is due, without a draw. Otherwise it draws until the batch has n items, or a stop comes.
    fn next(&mut self) -> Result<Option<Vec<I::Item>>, I::Error> {
        match self.stage.1.take() {
            Some(stop) => stop_answer(stop),
            None => {
                let adapter = ChunksStage;
                let (answer, due) = filled(&mut self.it, &mut self.stage.0, &adapter);
                put_due(&mut self.stage.1, due);
                answer
            }
        }
    }

    fn size_hint(&self) -> (usize, Option<usize>) {
        match self.stage.1 {
            Some(None) => (0, Some(0)),
            _ => {
                let hint = self.it.size_hint();
                let low = batches(hint.0, self.stage.0.0.0);
                (low, with_held(hint, &self.stage.0.0.1).1)
            }
        }
    }

    crate::base::by_drive!(drive);
}

// Draws until a batch is full or a stop comes, at most as often as a batch has items: the answer, and what is due after it. Nothing is due before.
fn filled<I: FallibleIterator>(
    it: &mut I,
    held: &mut ((usize, Option<Vec<I::Item>>), bool),
    adapter: &ChunksStage,
) -> AnswerAndDue<Vec<I::Item>, Stop<I::Error>, I::Error> {
    loop {
        match emitted_of(it.next(), held, adapter) {
            Some(emitted) => return emitted,
            None => {}
        }
    }
}

// What becomes of an item after the buffered batch.
struct ChunksStage;

impl<X, E> Stage<((usize, Option<Vec<X>>), bool), X, E> for ChunksStage {
    type Kept = Vec<X>;

    type Due = Stop<E>;

    #[inline(always)]
    fn on_item(
        &self,
        p: &mut ((usize, Option<Vec<X>>), bool),
        item: X,
    ) -> Emitted<Vec<X>, Stop<E>, E> {
        if grown(p.0.0, &mut p.1, &mut p.0.1, item) < p.0.0 {
            None
        } else {
            p.1 = true;
            match p.0.1.take() {
                Some(whole) => one(Ok(Some(whole))),
                None => unreachable!(),
            }
        }
    }

    #[inline(always)]
    fn on_stop(
        &self,
        p: &mut ((usize, Option<Vec<X>>), bool),
        stop: Stop<E>,
    ) -> Emitted<Vec<X>, Stop<E>, E> {
        let_go(p.0.1.take(), stop)
    }

    #[inline(always)]
    fn answer_due(&self, due: Stop<E>) -> AnswerAndDue<Vec<X>, Stop<E>, E> {
        (stop_answer(due), None)
    }
}

// Appends the item to the buffered batch, or to a new one, and returns how many items the batch has then. A new one has room for n at once, if the one before it was whole; after one that a stop cut it grows.
#[inline(always)]
fn grown<X>(n: usize, whole: &mut bool, held: &mut Option<Vec<X>>, item: X) -> usize {
    match held {
        Some(batch) => {
            pushed(batch, item);
            batch.len()
        }
        None => {
            let room = if replace(whole, false) { n } else { n.min(4) };
            let batch = alone(room, item);
            let count = batch.len();
            *held = Some(batch);
            count
        }
    }
}

// How many batches of n items so many items make.
fn batches(items: usize, n: usize) -> usize {
    let n = n.max(1);
    items / n + (items % n).min(1)
}

/// Groups of adjacent items with equal keys, each with its key. A group is buffered until an item with another key comes, or a stop: `Ok(None)` or a failure, which the next call returns. The closure's failure is a stop. Then the item is lost, and no other.
#[derive(Clone, Debug)]
#[must_use = "an iterator draws nothing until it is asked"]
pub struct ChunkBy<I: FallibleIterator, K, F> {
    pub(crate) it: I,
    // the buffered group, if there is one, and the closure; and the stop that is due: `Ok(None)`, or a failure
    pub(crate) stage: ((Option<(K, Vec<I::Item>)>, F), Option<Stop<I::Error>>),
}

impl<I: FallibleIterator, K, F> ChunkBy<I, K, F> {
    /// Creates it. It draws nothing.
    #[inline(always)]
    pub(crate) fn new(it: I, key: F) -> ChunkBy<I, K, F> {
        ChunkBy {
            it,
            stage: ((None, key), None),
        }
    }
}

// The fold by turns, by which `try_fold` goes.
impl<I: FallibleIterator, K: PartialEq, F: FnMut(&I::Item) -> Result<K, I::Error>>
    ChunkBy<I, K, F>
{
    #[inline(always)]
    fn by_turns<C, R, T: Turn<C, (K, Vec<I::Item>), R>>(
        &mut self,
        state: &mut C,
        turn: &T,
    ) -> Result<Option<R>, I::Error> {
        let adapter = ChunkByStage;
        drive_stage(&mut self.it, &mut self.stage, &adapter, state, turn)
    }
}

impl<I: FallibleIterator, K: PartialEq, F: FnMut(&I::Item) -> Result<K, I::Error>> FallibleIterator
    for ChunkBy<I, K, F>
{
    type Item = (K, Vec<I::Item>);

    type Error = I::Error;

    /// Returns the stop that is due, without a draw. Otherwise it draws until an item has another key than the buffered group, or a stop comes.
    fn next(&mut self) -> Result<Option<(K, Vec<I::Item>)>, I::Error> {
        let adapter = ChunkByStage;
        next_until(&mut self.it, &mut self.stage, &adapter)
    }

    fn size_hint(&self) -> (usize, Option<usize>) {
        hint_with_held(&self.it, &self.stage.1, &self.stage.0.0)
    }

    crate::base::by_drive!(drive);
}

// What becomes of an item after the buffered group.
struct ChunkByStage;

impl<X, K: PartialEq, E, F: FnMut(&X) -> Result<K, E>> Stage<(Option<(K, Vec<X>)>, F), X, E>
    for ChunkByStage
{
    type Kept = (K, Vec<X>);

    type Due = Stop<E>;

    #[inline(always)]
    fn on_item(
        &self,
        p: &mut (Option<(K, Vec<X>)>, F),
        item: X,
    ) -> Emitted<(K, Vec<X>), Stop<E>, E> {
        match (p.1)(&item) {
            Ok(key) => grouped(&mut p.0, key, item),
            Err(e) => let_go(p.0.take(), Some(e)),
        }
    }

    #[inline(always)]
    fn on_stop(
        &self,
        p: &mut (Option<(K, Vec<X>)>, F),
        stop: Stop<E>,
    ) -> Emitted<(K, Vec<X>), Stop<E>, E> {
        let_go(p.0.take(), stop)
    }

    #[inline(always)]
    fn answer_due(&self, due: Stop<E>) -> AnswerAndDue<(K, Vec<X>), Stop<E>, E> {
        (stop_answer(due), None)
    }
}

// What becomes of an item of that key. A new group has room for as many items as the one that it follows, up to 1024.
fn grouped<X, K: PartialEq, E>(
    group: &mut Option<(K, Vec<X>)>,
    key: K,
    item: X,
) -> Emitted<(K, Vec<X>), Stop<E>, E> {
    let room = match group {
        Some((of, items)) => {
            if *of == key {
                pushed(items, item);
                return None;
            }
            items.len()
        }
        None => 0,
    };
    match group.replace((key, alone(room, item))) {
        Some(whole) => one(Ok(Some(whole))),
        None => None,
    }
}
