// The adapters of failures: those that convert, show or replace them, and those that end at them.

use crate::base::Turn;
use crate::base::{
    Fail, FirstTurn, Outcome, Pass, drive_back_failing, drive_back_recovering, drive_failing,
    drive_recovering, failed,
};
use core::marker::PhantomData;
use fallible_iterator::{DoubleEndedFallibleIterator, FallibleIterator};

/// The source with each failure converted by `From`. Items and `Ok(None)` pass.
#[must_use = "an iterator draws nothing until it is asked"]
pub struct ErrInto<I, E> {
    pub(crate) it: I,
    pub(crate) made: PhantomData<fn() -> E>,
}

impl<I, E> ErrInto<I, E> {
    /// Creates it. It draws nothing.
    #[inline(always)]
    pub(crate) fn new(it: I) -> ErrInto<I, E> {
        ErrInto {
            it,
            made: PhantomData,
        }
    }
}

// The fold by turns, by which `try_fold` goes.
impl<I: FallibleIterator, E: From<I::Error>> ErrInto<I, E> {
    #[inline(always)]
    fn by_turns<C, R, K: Turn<C, I::Item, R>>(
        &mut self,
        state: &mut C,
        turn: &K,
    ) -> Result<Option<R>, E> {
        drive_failing(
            &mut self.it,
            &mut (),
            &IntoFail::<E> { made: PhantomData },
            state,
            turn,
        )
    }
}

impl<I: FallibleIterator, E: From<I::Error>> FallibleIterator for ErrInto<I, E> {
    type Item = I::Item;

    type Error = E;

    /// Draws once, and converts a failure.
    fn next(&mut self) -> Result<Option<I::Item>, E> {
        failed(
            self.it.next(),
            &mut (),
            &IntoFail::<E> { made: PhantomData },
        )
    }

    fn size_hint(&self) -> (usize, Option<usize>) {
        self.it.size_hint()
    }

    fn count(self) -> Result<usize, E> {
        failed(
            self.it.count(),
            &mut (),
            &IntoFail::<E> { made: PhantomData },
        )
    }

    fn last(self) -> Result<Option<I::Item>, E> {
        failed(
            self.it.last(),
            &mut (),
            &IntoFail::<E> { made: PhantomData },
        )
    }

    fn nth(&mut self, n: usize) -> Result<Option<I::Item>, E> {
        failed(
            self.it.nth(n),
            &mut (),
            &IntoFail::<E> { made: PhantomData },
        )
    }

    crate::base::by_drive!(drive);
}

// The fold by turns, by which `try_fold` goes.
impl<I: DoubleEndedFallibleIterator, E: From<I::Error>> ErrInto<I, E> {
    #[inline(always)]
    fn back_by_turns<C, R, K: Turn<C, I::Item, R>>(
        &mut self,
        state: &mut C,
        turn: &K,
    ) -> Result<Option<R>, E> {
        drive_back_failing(
            &mut self.it,
            &mut (),
            &IntoFail::<E> { made: PhantomData },
            state,
            turn,
        )
    }
}

impl<I: DoubleEndedFallibleIterator, E: From<I::Error>> DoubleEndedFallibleIterator
    for ErrInto<I, E>
{
    /// Draws once from the back, and converts a failure.
    fn next_back(&mut self) -> Result<Option<I::Item>, E> {
        failed(
            self.it.next_back(),
            &mut (),
            &IntoFail::<E> { made: PhantomData },
        )
    }

    crate::base::by_drive!(drive_back);
}

// The failure, converted.
struct IntoFail<E> {
    made: PhantomData<E>,
}

impl<D, E: From<D>> Fail<(), D> for IntoFail<E> {
    type Failure = E;

    #[inline(always)]
    fn fail(&self, _state: &mut (), failure: D) -> E {
        E::from(failure)
    }
}

/// What the source returns. The closure is called on a reference to each failure first.
#[derive(Clone, Debug)]
#[must_use = "an iterator draws nothing until it is asked"]
pub struct InspectErr<I, F> {
    pub(crate) it: I,
    pub(crate) f: F,
}

impl<I, F> InspectErr<I, F> {
    /// Creates it. It draws nothing.
    #[inline(always)]
    pub(crate) fn new(it: I, f: F) -> InspectErr<I, F> {
        InspectErr { it, f }
    }
}

// The fold by turns, by which `try_fold` goes.
impl<I: FallibleIterator, F: FnMut(&I::Error)> InspectErr<I, F> {
    #[inline(always)]
    fn by_turns<C, R, K: Turn<C, I::Item, R>>(
        &mut self,
        state: &mut C,
        turn: &K,
    ) -> Result<Option<R>, I::Error> {
        drive_failing(&mut self.it, &mut self.f, &InspectErrFail, state, turn)
    }
}

impl<I: FallibleIterator, F: FnMut(&I::Error)> FallibleIterator for InspectErr<I, F> {
    type Item = I::Item;

    type Error = I::Error;

    /// Draws once, and calls the closure if a failure came.
    fn next(&mut self) -> Result<Option<I::Item>, I::Error> {
        failed(self.it.next(), &mut self.f, &InspectErrFail)
    }

    fn size_hint(&self) -> (usize, Option<usize>) {
        self.it.size_hint()
    }

    fn count(self) -> Result<usize, Self::Error> {
        let mut f = self.f;
        failed(self.it.count(), &mut f, &InspectErrFail)
    }

    fn last(self) -> Result<Option<Self::Item>, Self::Error> {
        let mut f = self.f;
        failed(self.it.last(), &mut f, &InspectErrFail)
    }

    fn nth(&mut self, n: usize) -> Result<Option<I::Item>, I::Error> {
        failed(self.it.nth(n), &mut self.f, &InspectErrFail)
    }

    crate::base::by_drive!(drive);
}

// The fold by turns, by which `try_fold` goes.
impl<I: DoubleEndedFallibleIterator, F: FnMut(&I::Error)> InspectErr<I, F> {
    #[inline(always)]
    fn back_by_turns<C, R, K: Turn<C, I::Item, R>>(
        &mut self,
        state: &mut C,
        turn: &K,
    ) -> Result<Option<R>, I::Error> {
        drive_back_failing(&mut self.it, &mut self.f, &InspectErrFail, state, turn)
    }
}

impl<I: DoubleEndedFallibleIterator, F: FnMut(&I::Error)> DoubleEndedFallibleIterator
    for InspectErr<I, F>
{
    /// Draws once from the back, and calls the closure if a failure came.
    fn next_back(&mut self) -> Result<Option<I::Item>, I::Error> {
        failed(self.it.next_back(), &mut self.f, &InspectErrFail)
    }

    crate::base::by_drive!(drive_back);
}

// The failure itself, after the closure's call.
struct InspectErrFail;

impl<D, F: FnMut(&D)> Fail<F, D> for InspectErrFail {
    type Failure = D;

    #[inline(always)]
    fn fail(&self, state: &mut F, failure: D) -> D {
        state(&failure);
        failure
    }
}

/// What the source returns, with each failure replaced by what the closure returns for it: an item, nothing or another failure. Items and `Ok(None)` pass.
#[derive(Clone, Debug)]
#[must_use = "an iterator draws nothing until it is asked"]
pub struct OrElse<I, F> {
    pub(crate) it: I,
    pub(crate) f: F,
}

impl<I, F> OrElse<I, F> {
    /// Creates it. It draws nothing.
    #[inline(always)]
    pub(crate) fn new(it: I, f: F) -> OrElse<I, F> {
        OrElse { it, f }
    }
}

// The fold by turns, by which `try_fold` goes.
impl<I: FallibleIterator, E, F: FnMut(I::Error) -> Result<Option<I::Item>, E>> OrElse<I, F> {
    #[inline(always)]
    fn by_turns<C, R, K: Turn<C, I::Item, R>>(
        &mut self,
        state: &mut C,
        turn: &K,
    ) -> Result<Option<R>, E> {
        drive_recovering(&mut self.it, &mut self.f, &OrElsePass, state, turn)
    }
}

impl<I: FallibleIterator, E, F: FnMut(I::Error) -> Result<Option<I::Item>, E>> FallibleIterator
    for OrElse<I, F>
{
    type Item = I::Item;

    type Error = E;

    /// Draws until an item or an `Ok(None)` comes, or a failure for which the closure returns an item or fails.
    fn next(&mut self) -> Result<Option<I::Item>, E> {
        self.by_turns(&mut (), &FirstTurn)
    }

    fn size_hint(&self) -> (usize, Option<usize>) {
        (0, None)
    }

    crate::base::by_drive!(drive);
}

// The fold by turns, by which `try_fold` goes.
impl<I: DoubleEndedFallibleIterator, E, F: FnMut(I::Error) -> Result<Option<I::Item>, E>>
    OrElse<I, F>
{
    #[inline(always)]
    fn back_by_turns<C, R, K: Turn<C, I::Item, R>>(
        &mut self,
        state: &mut C,
        turn: &K,
    ) -> Result<Option<R>, E> {
        drive_back_recovering(&mut self.it, &mut self.f, &OrElsePass, state, turn)
    }
}

impl<I: DoubleEndedFallibleIterator, E, F: FnMut(I::Error) -> Result<Option<I::Item>, E>>
    DoubleEndedFallibleIterator for OrElse<I, F>
{
    /// Draws from the back until an item or an `Ok(None)` comes, or a failure for which the closure returns an item or fails.
    fn next_back(&mut self) -> Result<Option<I::Item>, E> {
        self.back_by_turns(&mut (), &FirstTurn)
    }

    crate::base::by_drive!(drive_back);
}

// What becomes of a failure by the closure's result.
struct OrElsePass;

impl<X, D, E, F: FnMut(D) -> Result<Option<X>, E>> Pass<F, D, E> for OrElsePass {
    type Kept = X;

    type Answer = Result<Option<X>, E>;

    #[inline(always)]
    fn pass(&self, state: &mut F, item: D) -> Outcome<X, E> {
        match state(item) {
            Ok(Some(x)) => Outcome::Kept(x),
            Ok(None) => Outcome::LeftOut,
            Err(e) => Outcome::Failure(e),
        }
    }
}

/// What the source returns up to its first failure, and that one too. Then each call returns `Ok(None)`. Items and `Ok(None)` of the source pass.
#[derive(Clone, Debug)]
#[must_use = "an iterator draws nothing until it is asked"]
pub struct FuseAtFailure<I> {
    pub(crate) it: I,
    // whether the source failed
    pub(crate) failed: bool,
}

impl<I> FuseAtFailure<I> {
    /// Creates it. It draws nothing.
    #[inline(always)]
    pub(crate) fn new(it: I) -> FuseAtFailure<I> {
        FuseAtFailure { it, failed: false }
    }
}

impl<I: FallibleIterator> FallibleIterator for FuseAtFailure<I> {
    type Item = I::Item;

    type Error = I::Error;

    /// Draws once, and nothing after a failure.
    fn next(&mut self) -> Result<Option<I::Item>, I::Error> {
        if self.failed {
            return Ok(None);
        }
        match self.it.next() {
            Ok(item) => Ok(item),
            Err(e) => {
                self.failed = true;
                Err(e)
            }
        }
    }

    fn size_hint(&self) -> (usize, Option<usize>) {
        if self.failed {
            (0, Some(0))
        } else {
            self.it.size_hint()
        }
    }
}

/// What the source returns up to its n-th failure, and that one too. Then each call returns `Ok(None)`. Items and `Ok(None)` of the source pass, and don't count.
#[derive(Clone, Debug)]
#[must_use = "an iterator draws nothing until it is asked"]
pub struct StopAfter<I> {
    pub(crate) it: I,
    // how many failures it still yields
    pub(crate) to_fail: usize,
}

impl<I> StopAfter<I> {
    /// Creates it. It draws nothing.
    #[inline(always)]
    pub(crate) fn new(it: I, n: usize) -> StopAfter<I> {
        StopAfter { it, to_fail: n }
    }
}

impl<I: FallibleIterator> FallibleIterator for StopAfter<I> {
    type Item = I::Item;

    type Error = I::Error;

    /// Draws once, and nothing after the last failure.
    fn next(&mut self) -> Result<Option<I::Item>, I::Error> {
        if self.to_fail == 0 {
            return Ok(None);
        }
        match self.it.next() {
            Ok(Some(x)) => Ok(Some(x)),
            Ok(None) => Ok(None),
            Err(e) => {
                self.to_fail -= 1;
                Err(e)
            }
        }
    }

    fn size_hint(&self) -> (usize, Option<usize>) {
        if self.to_fail == 0 {
            (0, Some(0))
        } else {
            self.it.size_hint()
        }
    }
}

impl<I: Clone, E> Clone for ErrInto<I, E> {
    fn clone(&self) -> Self {
        ErrInto {
            it: self.it.clone(),
            made: PhantomData,
        }
    }
}

impl<I: core::fmt::Debug, E> core::fmt::Debug for ErrInto<I, E> {
    fn fmt(&self, f: &mut core::fmt::Formatter<'_>) -> core::fmt::Result {
        f.debug_struct("ErrInto").field("it", &self.it).finish()
    }
}
