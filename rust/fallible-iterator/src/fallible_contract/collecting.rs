//! Collections that are made of items, and the turns of the folds that fill them.

use crate::fallible_contract::folds::Turn;
use crate::memory::AllocError;
use core::ops::ControlFlow;

/// A collection that is made empty and filled item by item.
pub trait Collect<T>: Sized {
    /// Appends one item to the others.
    ///
    /// <details><summary>Contract</summary>
    ///
    /// As it is proved, in [these words](crate::words):
    ///
    /// ```text
    /// ensures { MatchResult result
    ///     (λ _. (items : List T) → made items self.old → made (items ++ item ∷ []) self.new)
    ///     (λ _. push_refuses self.old item) }
    /// ```
    /// </details>
    fn push_one(&mut self, item: T) -> Result<(), AllocError>;
}

/// Why a collection was not made: the source failed, or an allocation did.
#[derive(Debug)]
pub enum Fault<E> {
    /// the first failure of the source or of a closure
    Source(E),
    /// an allocation of the collection failed
    Memory(AllocError),
}

impl<E> From<E> for Fault<E> {
    /// The source's failure.
    fn from(error: E) -> Fault<E> {
        Fault::Source(error)
    }
}

/// The turn of `collect`, whose state is the collection. It stops if that rejects an item.
pub struct CollectTurn;

impl<A, C: Collect<A>> Turn<C, A, AllocError> for CollectTurn {
    /// Appends the item to the others.
    #[inline(always)]
    fn turn(&self, state: &mut C, item: A) -> ControlFlow<AllocError, ()> {
        match state.push_one(item) {
            Ok(()) => ControlFlow::Continue(()),
            Err(refused) => ControlFlow::Break(refused),
        }
    }
}

/// The turn of `partition`, whose state is the predicate and both collections.
pub struct PartitionTurn;

impl<A, E, B: Collect<A>, F: FnMut(&A) -> Result<bool, E>> Turn<(F, (B, B)), A, Fault<E>>
    for PartitionTurn
{
    /// Calls the predicate once, and pushes the item to the side that it returns.
    #[inline(always)]
    fn turn(&self, state: &mut (F, (B, B)), item: A) -> ControlFlow<Fault<E>, ()> {
        let answer = match (state.0)(&item) {
            Ok(answer) => answer,
            Err(e) => return ControlFlow::Break(Fault::Source(e)),
        };
        if answer {
            match state.1.0.push_one(item) {
                Ok(()) => ControlFlow::Continue(()),
                Err(refused) => ControlFlow::Break(Fault::Memory(refused)),
            }
        } else {
            match state.1.1.push_one(item) {
                Ok(()) => ControlFlow::Continue(()),
                Err(refused) => ControlFlow::Break(Fault::Memory(refused)),
            }
        }
    }
}

/// The turn of `unzip`, whose state is both collections.
pub struct UnzipTurn;

impl<A, B, C: Collect<A>, D: Collect<B>> Turn<(C, D), (A, B), AllocError> for UnzipTurn {
    /// Pushes the first half to the first collection, and then the second half to the second.
    #[inline(always)]
    fn turn(&self, state: &mut (C, D), item: (A, B)) -> ControlFlow<AllocError, ()> {
        let (a, b) = item;
        match state.0.push_one(a) {
            Ok(()) => {}
            Err(refused) => return ControlFlow::Break(refused),
        }
        match state.1.push_one(b) {
            Ok(()) => ControlFlow::Continue(()),
            Err(refused) => ControlFlow::Break(refused),
        }
    }
}

/// Any collection that Rust can extend, as a collection that is made of items.
pub struct Extended<B>(pub B);

impl<T, B: Extend<T>> Collect<T> for Extended<B> {
    #[inline(always)]
    fn push_one(&mut self, item: T) -> Result<(), AllocError> {
        self.0.extend(Some(item));
        Ok(())
    }
}
