//! The folds of the adapters whose closure is called on failures, through their sources' own. The closure is called on the failure that the source's fold returns, and so never on what a turn stops with.

use crate::base::drive::Drive;
use crate::base::drive::DriveBack;
use crate::base::fallible_contract::failing::Fail;
use crate::base::fallible_contract::failing::failed;
use crate::base::fallible_contract::folds::Turn;
use crate::base::fallible_contract::passing::Pass;
use crate::base::fallible_contract::passing::turn_on_passed;
use core::ops::ControlFlow;
use fallible_iterator::DoubleEndedFallibleIterator;
use fallible_iterator::FallibleIterator;

/// The fold from the front of such an adapter: the source's, and what becomes of the failure that it met.
pub fn drive_failing<I: FallibleIterator, P, A: Fail<P, I::Error>, C, R, K: Turn<C, I::Item, R>>(
    it: &mut I,
    p: &mut P,
    adapter: &A,
    state: &mut C,
    turn: &K,
) -> Result<Option<R>, A::Failure> {
    failed(it.by_turns(state, turn), p, adapter)
}

/// The fold from the back of such an adapter: the source's from the back, and what becomes of the failure that it met.
pub fn drive_back_failing<
    I: DoubleEndedFallibleIterator,
    P,
    A: Fail<P, I::Error>,
    C,
    R,
    K: Turn<C, I::Item, R>,
>(
    it: &mut I,
    p: &mut P,
    adapter: &A,
    state: &mut C,
    turn: &K,
) -> Result<Option<R>, A::Failure> {
    failed(it.back_by_turns(state, turn), p, adapter)
}

/// The fold from the front of an adapter by which a failure may become an item, nothing or another failure: the source's fold up to a failure, and the turn on that; and again, if that turn goes on.
pub fn drive_recovering<
    I: FallibleIterator,
    P,
    E,
    A: Pass<P, I::Error, E, Kept = I::Item>,
    C,
    R,
    K: Turn<C, I::Item, R>,
>(
    it: &mut I,
    p: &mut P,
    adapter: &A,
    state: &mut C,
    turn: &K,
) -> Result<Option<R>, E> {
    loop {
        match it.by_turns(state, turn) {
            Ok(value) => return Ok(value),
            Err(d) => match turn_on_passed(d, p, adapter, state, turn) {
                ControlFlow::Continue(()) => {}
                ControlFlow::Break(answer) => return answer,
            },
        }
    }
}

/// The fold from the back of an adapter by which a failure may become an item, nothing or another failure.
pub fn drive_back_recovering<
    I: DoubleEndedFallibleIterator,
    P,
    E,
    A: Pass<P, I::Error, E, Kept = I::Item>,
    C,
    R,
    K: Turn<C, I::Item, R>,
>(
    it: &mut I,
    p: &mut P,
    adapter: &A,
    state: &mut C,
    turn: &K,
) -> Result<Option<R>, E> {
    loop {
        match it.back_by_turns(state, turn) {
            Ok(value) => return Ok(value),
            Err(d) => match turn_on_passed(d, p, adapter, state, turn) {
                ControlFlow::Continue(()) => {}
                ControlFlow::Break(answer) => return answer,
            },
        }
    }
}
