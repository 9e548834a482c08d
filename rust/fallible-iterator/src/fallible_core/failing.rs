//! The folds of the adapters whose closure is called on failures, through their sources' own. The closure is called on the failure that the source's fold returns, and so never on what a turn stops with.

use crate::fallible_contract::failing::{Fail, failed};
use crate::fallible_contract::folds::Turn;
use crate::fallible_contract::passing::{Pass, turn_on_passed};
use crate::fallible_core::traits::FallibleIterator;
use crate::fallible_core::traits::double_ended::DoubleEndedFallibleIterator;
use core::ops::ControlFlow;

/// The fold from the front of such an adapter: the source's, and what becomes of the failure that it met.
///
/// <details><summary>Contract</summary>
///
/// As it is proved, in [these words](crate::words):
///
/// ```text
/// requires can_next { I.contract.can_next it.old }
/// requires finite { I.contract.is_finite it.old }
/// requires takes { IsCallable (A.call adapter.now) (A.can_fail adapter.now)
///     (I.contract.may_fail it.old) p.old }
/// requires callable { CallableDriving (failing_step I.contract.steps (A.call adapter.now))
///     (K.turns turn.now) (K.can_turn turn.now) (it.old, p.old) state.old }
/// ensures { Driven (failing_step I.contract.steps (A.call adapter.now))
///     (K.turns turn.now) (it.old, p.old) state.old result (it.new, p.new) state.new }
/// ```
/// </details>
pub fn drive_failing<I: FallibleIterator, P, A: Fail<P, I::Error>, C, R, K: Turn<C, I::Item, R>>(
    it: &mut I,
    p: &mut P,
    adapter: &A,
    state: &mut C,
    turn: &K,
) -> Result<Option<R>, A::Failure> {
    failed(it.drive(state, turn), p, adapter)
}

/// The fold from the back of such an adapter: the source's from the back, and what becomes of the failure that it met.
///
/// <details><summary>Contract</summary>
///
/// As it is proved, in [these words](crate::words):
///
/// ```text
/// requires can_next { I.ends.can_next it.old }
/// requires finite { I.contract.is_finite it.old }
/// requires takes { IsCallable (A.call adapter.now) (A.can_fail adapter.now)
///     (I.ends.may_fail it.old) p.old }
/// requires callable { CallableDriving (failing_step I.ends.steps (A.call adapter.now))
///     (K.turns turn.now) (K.can_turn turn.now) (it.old, p.old) state.old }
/// ensures { Driven (failing_step I.ends.steps (A.call adapter.now))
///     (K.turns turn.now) (it.old, p.old) state.old result (it.new, p.new) state.new }
/// ```
/// </details>
pub fn drive_back_failing<
    I: DoubleEndedFallibleIterator,
    P,
    A: Fail<P, I::Error>,
    C,
    R,
    K: Turn<C, I::Item, R>,
>(
    it: &mut I,
    p: &mut P,
    adapter: &A,
    state: &mut C,
    turn: &K,
) -> Result<Option<R>, A::Failure> {
    failed(it.drive_back(state, turn), p, adapter)
}

/// The fold from the front of an adapter by which a failure may become an item, nothing or another failure: the source's fold up to a failure, and the turn on that; and again, if that turn goes on.
///
/// <details><summary>Contract</summary>
///
/// As it is proved, where its signature is another, in [these words](crate::words):
///
/// ```text
/// requires can_next { (recovering_contract I.contract (A.call adapter.now)
///     (A.can_pass adapter.now) (A.outcome adapter.now)).can_next (it.old, p.old) }
/// requires bounded { (recovering_contract I.contract (A.call adapter.now)
///     (A.can_pass adapter.now) (A.outcome adapter.now)).bound (it.old, p.old) left.value }
/// requires callable { CallableDriving
///     (recovering_step I.contract.steps (A.call adapter.now) (A.outcome adapter.now))
///     (K.turns turn.now) (K.can_turn turn.now) (it.old, p.old) state.old }
/// ensures { Driven
///     (recovering_step I.contract.steps (A.call adapter.now) (A.outcome adapter.now))
///     (K.turns turn.now) (it.old, p.old) state.old result (it.new, p.new) state.new }
/// ```
/// </details>
pub fn drive_recovering<
    I: FallibleIterator,
    P,
    E,
    A: Pass<P, I::Error, E, Kept = I::Item>,
    C,
    R,
    K: Turn<C, I::Item, R>,
>(
    it: &mut I,
    p: &mut P,
    adapter: &A,
    state: &mut C,
    turn: &K,
) -> Result<Option<R>, E> {
    loop {
        match it.drive(state, turn) {
            Ok(value) => return Ok(value),
            Err(d) => match turn_on_passed(d, p, adapter, state, turn) {
                ControlFlow::Continue(()) => {}
                ControlFlow::Break(answer) => return answer,
            },
        }
    }
}

/// The fold from the back of an adapter by which a failure may become an item, nothing or another failure.
///
/// <details><summary>Contract</summary>
///
/// As it is proved, where its signature is another, in [these words](crate::words):
///
/// ```text
/// requires can_next { (recovering_contract (from_back I.contract I.ends) (A.call adapter.now)
///     (A.can_pass adapter.now) (A.outcome adapter.now)).can_next (it.old, p.old) }
/// requires bounded { (recovering_contract (from_back I.contract I.ends) (A.call adapter.now)
///     (A.can_pass adapter.now) (A.outcome adapter.now)).bound (it.old, p.old) left.value }
/// requires callable { CallableDriving
///     (recovering_step I.ends.steps (A.call adapter.now) (A.outcome adapter.now))
///     (K.turns turn.now) (K.can_turn turn.now) (it.old, p.old) state.old }
/// ensures { Driven
///     (recovering_step I.ends.steps (A.call adapter.now) (A.outcome adapter.now))
///     (K.turns turn.now) (it.old, p.old) state.old result (it.new, p.new) state.new }
/// ```
/// </details>
pub fn drive_back_recovering<
    I: DoubleEndedFallibleIterator,
    P,
    E,
    A: Pass<P, I::Error, E, Kept = I::Item>,
    C,
    R,
    K: Turn<C, I::Item, R>,
>(
    it: &mut I,
    p: &mut P,
    adapter: &A,
    state: &mut C,
    turn: &K,
) -> Result<Option<R>, E> {
    loop {
        match it.drive_back(state, turn) {
            Ok(value) => return Ok(value),
            Err(d) => match turn_on_passed(d, p, adapter, state, turn) {
                ControlFlow::Continue(()) => {}
                ControlFlow::Break(answer) => return answer,
            },
        }
    }
}
