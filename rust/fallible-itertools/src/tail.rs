//! The last items, in a queue.

use crate::base::AllocError;
use crate::base::Turn;
use alloc::collections::VecDeque;
use core::ops::ControlFlow;

// Puts the item at the end.
#[inline(always)]
fn put_last<A>(items: &mut VecDeque<A>, item: A) -> Result<(), AllocError> {
    items.push_back(item);
    Ok(())
}

// Puts the item at the end of at most n. If there are n, the first is dropped before; of none nothing is kept.
#[inline(always)]
fn keep_last<A>(items: &mut VecDeque<A>, n: usize, item: A) -> Result<(), AllocError> {
    if items.len() < n {
        return put_last(items, item);
    }
    match items.pop_front() {
        Some(_) => put_last(items, item),
        None => Ok(()),
    }
}

/// The turn of `tail`, whose state is the last items so far.
pub struct TailTurn {
    /// how many items are kept at most
    pub n: usize,
}

impl<A> Turn<VecDeque<A>, A, AllocError> for TailTurn {
    /// Keeps the item, and no more than n.
    #[inline(always)]
    fn turn(&self, state: &mut VecDeque<A>, item: A) -> ControlFlow<AllocError, ()> {
        match keep_last(state, self.n, item) {
            Ok(()) => ControlFlow::Continue(()),
            Err(refused) => ControlFlow::Break(refused),
        }
    }
}
