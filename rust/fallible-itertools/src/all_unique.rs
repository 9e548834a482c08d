//! Whether no two items are equal.

use crate::base::AllocError;
use crate::base::Turn;
use core::hash::Hash;
use core::ops::ControlFlow;
use std::collections::HashSet;

/// The turn of `all_unique`, whose state is the set of the items so far: it stops at an item that equals one of them.
pub struct AllUniqueTurn;

impl<A: Eq + Hash> Turn<HashSet<A>, A, Option<AllocError>> for AllUniqueTurn {
    /// Moves the item into the set, or drops it where one equals it.
    #[inline(always)]
    fn turn(&self, state: &mut HashSet<A>, item: A) -> ControlFlow<Option<AllocError>, ()> {
        if state.insert(item) {
            ControlFlow::Continue(())
        } else {
            ControlFlow::Break(None)
        }
    }
}

/// Whether the fold met the end, or what it stopped at.
///
/// <details><summary>Contract</summary>
///
/// As it is proved, in [these words](crate::words):
///
/// ```text
/// ensures { result ≡ unique_or_fault_of answer }
/// ```
/// </details>
pub fn unique_or_fault<E>(answer: Result<Option<Option<AllocError>>, E>) -> Result<bool, E> {
    match answer {
        Ok(None) => Ok(true),
        Ok(Some(None)) => Ok(false),
        Ok(Some(Some(refused))) => match refused {},
        Err(e) => Err(e),
    }
}
