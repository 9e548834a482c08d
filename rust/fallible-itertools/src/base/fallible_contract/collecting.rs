//! Collections that are made of items, and the turns of the folds that fill them.

use crate::base::fallible_contract::folds::Turn;
use crate::base::memory::AllocError;
use core::ops::ControlFlow;

/// A collection that is made empty and filled item by item.
pub trait Collect<T>: Sized {
    /// Appends one item to the others.
    fn push_one(&mut self, item: T) -> Result<(), AllocError>;
}

/// The turn of `collect`, whose state is the collection. It stops if that rejects an item.
pub struct CollectTurn;

impl<A, C: Collect<A>> Turn<C, A, AllocError> for CollectTurn {
    /// Appends the item to the others.
    #[inline(always)]
    fn turn(&self, state: &mut C, item: A) -> ControlFlow<AllocError, ()> {
        match state.push_one(item) {
            Ok(()) => ControlFlow::Continue(()),
            Err(refused) => ControlFlow::Break(refused),
        }
    }
}

/// Any collection that Rust can extend, as a collection that is made of items.
pub struct Extended<B>(pub B);

impl<T, B: Extend<T>> Collect<T> for Extended<B> {
    #[inline(always)]
    fn push_one(&mut self, item: T) -> Result<(), AllocError> {
        self.0.extend(Some(item));
        Ok(())
    }
}
