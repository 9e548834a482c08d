//! Folds, whose state a reference points to: their turns.

use core::convert::Infallible;
use core::ops::ControlFlow;

/// One turn of a fold: on the fold's state and an item it goes on, or stops the fold with a result. Every closure of this shape is one.
pub trait Turn<C, A, R> {
    /// Takes the turn: `Continue` if the fold goes on, or `Break` with what it stops with.
    fn turn(&self, state: &mut C, item: A) -> ControlFlow<R, ()>;
}

/// The state of an adapter's fold through its source's own: the caller's, and the adapter's.
pub struct Beside<'a, C, P> {
    /// the caller's state
    pub c: &'a mut C,
    /// the adapter's state
    pub p: &'a mut P,
}

/// What a fold of the source returns whose turn stops with a result: that result, or the source's `Ok(None)` or failure.
#[inline(always)]
pub fn answer_within<R, E>(
    answer: Result<Option<Result<Option<R>, E>>, E>,
) -> Result<Option<R>, E> {
    match answer {
        Ok(Some(stop)) => stop,
        Ok(None) => Ok(None),
        Err(e) => Err(e),
    }
}

/// The turn of `count`, whose state is the number of items.
pub struct CountTurn;

impl<A> Turn<usize, A, Infallible> for CountTurn {
    /// Adds one.
    #[inline(always)]
    fn turn(&self, state: &mut usize, _item: A) -> ControlFlow<Infallible, ()> {
        *state += 1;
        ControlFlow::Continue(())
    }
}

/// The turn of `try_fold`, whose state is the value so far, in a slot that is empty only during a call, and the closure.
pub struct TryFoldTurn;

impl<A, B, E, F: FnMut(B, A) -> Result<B, E>> Turn<(Option<B>, F), A, E> for TryFoldTurn {
    /// Calls the closure on the value so far and the item.
    #[inline(always)]
    fn turn(&self, state: &mut (Option<B>, F), item: A) -> ControlFlow<E, ()> {
        match state.0.take() {
            Some(value) => match (state.1)(value, item) {
                Ok(value) => {
                    state.0 = Some(value);
                    ControlFlow::Continue(())
                }
                Err(e) => ControlFlow::Break(e),
            },
            None => unreachable!(),
        }
    }
}

/// The turn of a draw that is a fold: it stops with the first item.
pub struct FirstTurn;

impl<A> Turn<(), A, A> for FirstTurn {
    /// Stops with the item.
    #[inline(always)]
    fn turn(&self, _state: &mut (), item: A) -> ControlFlow<A, ()> {
        ControlFlow::Break(item)
    }
}
