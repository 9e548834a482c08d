//! Folds, whose state a reference points to: their turns.

use core::convert::Infallible;
use core::ops::ControlFlow;

/// One turn of a fold: on the fold's state and an item it goes on, or stops the fold with a result. Every closure of this shape is one.
pub trait Turn<C, A, R> {
    /// Takes the turn: `Continue` if the fold goes on, or `Break` with what it stops with.
    ///
    /// <details><summary>Contract</summary>
    ///
    /// As it is proved, in [these words](crate::words):
    ///
    /// ```text
    /// requires { can_turn self.now state.old item }
    /// ensures { turns self.now state.old item result state.new }
    /// ```
    /// </details>
    fn turn(&self, state: &mut C, item: A) -> ControlFlow<R, ()>;
}

impl<C, A, R, F: Fn(&mut C, A) -> ControlFlow<R, ()>> Turn<C, A, R> for F {
    #[inline(always)]
    fn turn(&self, state: &mut C, item: A) -> ControlFlow<R, ()> {
        self(state, item)
    }
}

/// The state of an adapter's fold through its source's own: the caller's, and the adapter's.
pub struct Beside<'a, C, P> {
    /// the caller's state
    pub c: &'a mut C,
    /// the adapter's state
    pub p: &'a mut P,
}

/// What a fold of the source returns whose turn stops with a result: that result, or the source's `Ok(None)` or failure.
///
/// <details><summary>Contract</summary>
///
/// As it is proved, in [these words](crate::words):
///
/// ```text
/// ensures { result ≡ within answer }
/// ```
/// </details>
#[inline(always)]
pub fn answer_within<R, E>(
    answer: Result<Option<Result<Option<R>, E>>, E>,
) -> Result<Option<R>, E> {
    match answer {
        Ok(Some(stop)) => stop,
        Ok(None) => Ok(None),
        Err(e) => Err(e),
    }
}

/// The turn of `count`, whose state is the number of items.
pub struct CountTurn;

impl<A> Turn<usize, A, Infallible> for CountTurn {
    /// Adds one.
    #[inline(always)]
    fn turn(&self, state: &mut usize, _item: A) -> ControlFlow<Infallible, ()> {
        *state += 1;
        ControlFlow::Continue(())
    }
}

/// The turn of `last`, whose state is the item that came last.
pub struct LastTurn;

impl<A> Turn<Option<A>, A, Infallible> for LastTurn {
    /// Replaces the item by the next one.
    #[inline(always)]
    fn turn(&self, state: &mut Option<A>, item: A) -> ControlFlow<Infallible, ()> {
        *state = Some(item);
        ControlFlow::Continue(())
    }
}

/// The turn of `try_fold`, whose state is the value so far, in a slot that is empty only during a call, and the closure.
pub struct TryFoldTurn;

impl<A, B, E, F: FnMut(B, A) -> Result<B, E>> Turn<(Option<B>, F), A, E> for TryFoldTurn {
    /// Calls the closure on the value so far and the item.
    #[inline(always)]
    fn turn(&self, state: &mut (Option<B>, F), item: A) -> ControlFlow<E, ()> {
        match state.0.take() {
            Some(value) => match (state.1)(value, item) {
                Ok(value) => {
                    state.0 = Some(value);
                    ControlFlow::Continue(())
                }
                Err(e) => ControlFlow::Break(e),
            },
            None => unreachable!(),
        }
    }
}

/// The turn of `reduce`, whose state is the value so far, if an item came, and the closure.
pub struct ReduceTurn;

impl<A, E, F: FnMut(A, A) -> Result<A, E>> Turn<(Option<A>, F), A, E> for ReduceTurn {
    /// Takes the first item without a call; then it calls the closure on the value so far and the item.
    #[inline(always)]
    fn turn(&self, state: &mut (Option<A>, F), item: A) -> ControlFlow<E, ()> {
        let value = match state.0.take() {
            Some(value) => match (state.1)(value, item) {
                Ok(value) => value,
                Err(e) => return ControlFlow::Break(e),
            },
            None => item,
        };
        state.0 = Some(value);
        ControlFlow::Continue(())
    }
}

/// The turn of an `nth` that is one fold, whose state is how many items are still to be skipped. It stops with the item that comes when none are.
pub struct NthTurn;

impl<A> Turn<usize, A, A> for NthTurn {
    /// Subtracts one, or stops with the item.
    #[inline(always)]
    fn turn(&self, state: &mut usize, item: A) -> ControlFlow<A, ()> {
        if *state == 0 {
            ControlFlow::Break(item)
        } else {
            *state -= 1;
            ControlFlow::Continue(())
        }
    }
}

/// The turn of a draw that is a fold: it stops with the first item.
pub struct FirstTurn;

impl<A> Turn<(), A, A> for FirstTurn {
    /// Stops with the item.
    #[inline(always)]
    fn turn(&self, _state: &mut (), item: A) -> ControlFlow<A, ()> {
        ControlFlow::Break(item)
    }
}
