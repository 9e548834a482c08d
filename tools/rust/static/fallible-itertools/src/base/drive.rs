//! The fold by turns of any fallible iterator, through its `try_fold`.

use crate::base::fallible_contract::folds::Turn;
use crate::base::memory::AllocError;
use core::ops::ControlFlow;
use fallible_iterator::{DoubleEndedFallibleIterator, FallibleIterator};

// What a fold stops with: what a turn stops with, or a failure of the source.
enum Stop<R, E> {
    Turn(R),
    Failure(E),
}

impl<R, E> From<E> for Stop<R, E> {
    #[inline(always)]
    fn from(e: E) -> Stop<R, E> {
        Stop::Failure(e)
    }
}

#[inline(always)]
fn stopped<R, E>(folded: Result<(), Stop<R, E>>) -> Result<Option<R>, E> {
    match folded {
        Ok(()) => Ok(None),
        Err(Stop::Turn(stop)) => Ok(Some(stop)),
        Err(Stop::Failure(e)) => Err(e),
    }
}

/// What a fold came to whose turns refuse nothing.
#[inline(always)]
pub fn whole<E>(folded: Result<Option<AllocError>, E>) -> Result<(), E> {
    match folded {
        Ok(None) => Ok(()),
        Ok(Some(refused)) => match refused {},
        Err(e) => Err(e),
    }
}

/// The fold by turns from the front.
pub trait Drive: FallibleIterator + Sized {
    /// Calls the turn on the state and each item, up to `Ok(None)`, a failure, or a turn that stops.
    #[inline(always)]
    fn by_turns<C, R, K: Turn<C, Self::Item, R>>(
        &mut self,
        state: &mut C,
        turn: &K,
    ) -> Result<Option<R>, Self::Error> {
        stopped(self.try_fold((), |(), item| match turn.turn(state, item) {
            ControlFlow::Continue(()) => Ok(()),
            ControlFlow::Break(stop) => Err(Stop::Turn(stop)),
        }))
    }
}

impl<I: FallibleIterator> Drive for I {}

/// The fold by turns from the back.
pub trait DriveBack: DoubleEndedFallibleIterator + Sized {
    /// Calls the turn on the state and each item from the back, up to `Ok(None)`, a failure, or a turn that stops.
    #[inline(always)]
    fn back_by_turns<C, R, K: Turn<C, Self::Item, R>>(
        &mut self,
        state: &mut C,
        turn: &K,
    ) -> Result<Option<R>, Self::Error> {
        stopped(self.try_rfold((), |(), item| match turn.turn(state, item) {
            ControlFlow::Continue(()) => Ok(()),
            ControlFlow::Break(stop) => Err(Stop::Turn(stop)),
        }))
    }
}

impl<I: DoubleEndedFallibleIterator> DriveBack for I {}
