//! Searches: the turns of the folds that they are, the test of one, and what a search makes of its fold.

use crate::base::fallible_contract::folds::Turn;
use core::ops::ControlFlow;

/// What a search returns, from what its fold returned: `none` at `Ok(None)`, the source's failure, or what the fold stopped with.
pub fn answer_or<R, E>(answer: Result<Option<Result<R, E>>, E>, none: R) -> Result<R, E> {
    match answer {
        Ok(None) => Ok(none),
        Ok(Some(stop)) => stop,
        Err(e) => Err(e),
    }
}

/// What a search for a value returns, from what its fold returned: `Ok(None)` at the end, the source's failure, or what the fold stopped with.
pub fn answer_or_none<R, E>(
    answer: Result<Option<Result<Option<R>, E>>, E>,
) -> Result<Option<R>, E> {
    match answer {
        Ok(None) => Ok(None),
        Ok(Some(stop)) => stop,
        Err(e) => Err(e),
    }
}

/// What `find` returns, from what its fold returned: `Ok(None)` at the end, the source's failure, or the item or the failure that the fold stopped with.
pub fn found<A, E>(answer: Result<Option<Result<A, E>>, E>) -> Result<Option<A>, E> {
    match answer {
        Ok(None) => Ok(None),
        Ok(Some(Ok(item))) => Ok(Some(item)),
        Ok(Some(Err(e))) => Err(e),
        Err(e) => Err(e),
    }
}

/// One test of a search: on the search's state and an item it returns whether the search ends there. Every closure of this shape is one.
pub trait Test<C, A, E> {
    /// Makes the test: `Ok(true)` ends the search with the item, `Ok(false)` goes on, and a failure ends it.
    fn test(&self, state: &mut C, item: &A) -> Result<bool, E>;
}

/// The turn of the fold that `find` is: it stops at an item that the test accepts or fails on, and goes on after one that it rejects.
pub struct FindTurn<'a, K> {
    /// the test
    pub test: &'a K,
}

impl<'a, C, A, E, K: Test<C, A, E>> Turn<C, A, Result<A, E>> for FindTurn<'a, K> {
    /// Makes the test once.
    #[inline(always)]
    fn turn(&self, state: &mut C, item: A) -> ControlFlow<Result<A, E>, ()> {
        match self.test.test(state, &item) {
            Ok(true) => ControlFlow::Break(Ok(item)),
            Ok(false) => ControlFlow::Continue(()),
            Err(e) => ControlFlow::Break(Err(e)),
        }
    }
}

/// The test of `find`, whose state is the predicate, which it calls.
pub struct FindTest;

impl<A, E, F: FnMut(&A) -> Result<bool, E>> Test<F, A, E> for FindTest {
    /// Calls the predicate once.
    #[inline(always)]
    fn test(&self, state: &mut F, item: &A) -> Result<bool, E> {
        state(item)
    }
}

/// The turn of `for_each`, whose state is the closure: it calls it on each item, and stops if it fails.
pub struct ForEachTurn;

impl<A, E, F: FnMut(A) -> Result<(), E>> Turn<F, A, Result<(), E>> for ForEachTurn {
    /// Calls the closure once.
    #[inline(always)]
    fn turn(&self, state: &mut F, item: A) -> ControlFlow<Result<(), E>, ()> {
        match state(item) {
            Ok(()) => ControlFlow::Continue(()),
            Err(e) => ControlFlow::Break(Err(e)),
        }
    }
}

/// The turn of `any`, whose state is the predicate: it stops at the first item for which that returns true, or fails.
pub struct AnyTurn;

impl<A, E, F: FnMut(A) -> Result<bool, E>> Turn<F, A, Result<bool, E>> for AnyTurn {
    /// Calls the predicate once.
    #[inline(always)]
    fn turn(&self, state: &mut F, item: A) -> ControlFlow<Result<bool, E>, ()> {
        match state(item) {
            Ok(true) => ControlFlow::Break(Ok(true)),
            Ok(false) => ControlFlow::Continue(()),
            Err(e) => ControlFlow::Break(Err(e)),
        }
    }
}

/// The turn of `position`, whose state is the number of items before and the predicate: it stops at the first item for which that returns true, or fails.
pub struct PositionTurn;

impl<A, E, F: FnMut(A) -> Result<bool, E>> Turn<(usize, F), A, Result<Option<usize>, E>>
    for PositionTurn
{
    /// Calls the predicate once, and adds one for the next item.
    #[inline(always)]
    fn turn(&self, state: &mut (usize, F), item: A) -> ControlFlow<Result<Option<usize>, E>, ()> {
        match (state.1)(item) {
            Ok(true) => ControlFlow::Break(Ok(Some(state.0))),
            Ok(false) => {
                state.0 += 1;
                ControlFlow::Continue(())
            }
            Err(e) => ControlFlow::Break(Err(e)),
        }
    }
}
