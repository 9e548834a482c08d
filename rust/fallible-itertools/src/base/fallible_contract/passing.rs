//! What adapters make of the items that they let pass, and the turn of their folds.

use crate::base::fallible_contract::folds::Beside;
use crate::base::fallible_contract::folds::Turn;
use core::ops::ControlFlow;

/// What becomes of one item.
pub enum Outcome<B, E> {
    /// an item in its place
    Kept(B),
    /// nothing
    LeftOut,
    /// a failure in its place
    Failure(E),
    /// an `Ok(None)` in its place
    #[allow(dead_code)]
    End,
}

/// What an adapter makes of one item of its source, with the state that it keeps from item to item: its closure, or a count.
pub trait Pass<P, X, E> {
    /// What the adapter yields.
    type Kept;

    /// What the closure returns for an item.
    type Answer;

    /// Calls the closure once on the item.
    fn pass(&self, state: &mut P, item: X) -> Outcome<Self::Kept, E>;
}

/// What becomes of one item of the source, or of one failure where those are passed, and the caller's turn on what is kept: whether the fold goes on, or what it returns.
#[inline(always)]
pub fn turn_on_passed<P, X, E, A: Pass<P, X, E>, C, R, K: Turn<C, A::Kept, R>>(
    item: X,
    p: &mut P,
    adapter: &A,
    state: &mut C,
    turn: &K,
) -> ControlFlow<Result<Option<R>, E>, ()> {
    match adapter.pass(p, item) {
        Outcome::Kept(y) => match turn.turn(state, y) {
            ControlFlow::Continue(()) => ControlFlow::Continue(()),
            ControlFlow::Break(stop) => ControlFlow::Break(Ok(Some(stop))),
        },
        Outcome::LeftOut => ControlFlow::Continue(()),
        Outcome::Failure(e) => ControlFlow::Break(Err(e)),
        Outcome::End => ControlFlow::Break(Ok(None)),
    }
}

/// The turn of an adapter's fold through its source's own: what becomes of the item, and the caller's turn on what is kept.
pub struct PassTurn<'a, A, K> {
    /// the adapter
    pub adapter: &'a A,
    /// the caller's turn
    pub turn: &'a K,
}

impl<'a, 'b, P, X, E, C, R, A: Pass<P, X, E>, K: Turn<C, A::Kept, R>>
    Turn<Beside<'b, C, P>, X, Result<Option<R>, E>> for PassTurn<'a, A, K>
{
    /// Calls the closure once, and takes the caller's turn if the item is kept.
    #[inline(always)]
    fn turn(&self, state: &mut Beside<'b, C, P>, item: X) -> ControlFlow<Result<Option<R>, E>, ()> {
        turn_on_passed(item, state.p, self.adapter, state.c, self.turn)
    }
}

/// What an adapter that leaves nothing out makes of one answer of its source: the closure is called if that is an item.
pub fn passed<P, X, E, A: Pass<P, X, E>>(
    drawn: Result<Option<X>, E>,
    state: &mut P,
    adapter: &A,
) -> Result<Option<A::Kept>, E> {
    match drawn {
        Ok(Some(x)) => match adapter.pass(state, x) {
            Outcome::Kept(y) => Ok(Some(y)),
            Outcome::LeftOut => unreachable!(),
            Outcome::Failure(e) => Err(e),
            Outcome::End => Ok(None),
        },
        Ok(None) => Ok(None),
        Err(e) => Err(e),
    }
}
