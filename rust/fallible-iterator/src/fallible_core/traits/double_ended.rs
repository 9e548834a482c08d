//! The second end.

use crate::fallible_contract::folds::{TryFoldTurn, Turn};
use crate::fallible_core::traits::{FallibleIterator, Stop};
use core::ops::ControlFlow;

/// A fallible iterator that is double-ended: it may be drawn from the back as well. Draws from both ends may follow one another in any order.
///
/// A type of one's own writes `next_back`.
pub trait DoubleEndedFallibleIterator: FallibleIterator {
    /// Returns the next item from the back, a failure or `Ok(None)`.
    ///
    /// It is one draw, from the back. After that the iterator may be used again, from either end.
    ///
    /// ```
    /// # use fallible_iterator::{DoubleEndedFallibleIterator, FallibleIterator, convert};
    /// let mut it = convert([Ok::<u32, u8>(1), Ok(2), Err(9)].into_iter());
    /// let drawn = [it.next_back(), it.next(), it.next_back(), it.next_back()];
    /// assert_eq!(drawn, [Err(9), Ok(Some(1)), Ok(Some(2)), Ok(None)]);
    /// ```
    ///
    /// <details><summary>Contract</summary>
    ///
    /// As it is proved, in [these words](crate::words):
    ///
    /// ```text
    /// requires { ends.can_next self.old }
    /// ensures { ends.steps self.old result self.new }
    /// ```
    /// </details>
    fn next_back(&mut self) -> Result<Option<Self::Item>, Self::Error>;

    /// `drive` from the back. Every fold from the back goes through it. A caller uses `try_rfold`.
    ///
    /// <details><summary>Contract</summary>
    ///
    /// As it is proved, in [these words](crate::words):
    ///
    /// ```text
    /// requires can_next { ends.can_next self.old }
    /// requires finite { Self.contract.is_finite self.old }
    /// requires callable { CallableDriving ends.steps (K.turns turn.now) (K.can_turn turn.now)
    ///     self.old state.old }
    /// ensures { Driven ends.steps (K.turns turn.now) self.old state.old result
    ///     self.new state.new }
    /// ```
    /// </details>
    #[inline(always)]
    #[doc(hidden)]
    fn drive_back<C, R, K: Turn<C, Self::Item, R>>(
        &mut self,
        state: &mut C,
        turn: &K,
    ) -> Result<Option<R>, Self::Error>
    where
        Self: Sized,
    {
        let folded = self.try_rfold((), |(), x| match turn.turn(state, x) {
            ControlFlow::Continue(()) => Ok(()),
            ControlFlow::Break(stop) => Err(Stop::Turn(stop)),
        });
        match folded {
            Ok(()) => Ok(None),
            Err(Stop::Turn(stop)) => Ok(Some(stop)),
            Err(Stop::Failure(e)) => Err(e),
        }
    }

    #[inline(always)]
    #[doc(hidden)]
    fn drive_try_rfold<B, E, F>(&mut self, init: B, f: F) -> Result<B, E>
    where
        Self: Sized,
        E: From<Self::Error>,
        F: FnMut(B, Self::Item) -> Result<B, E>,
    {
        let mut state = (Some(init), f);
        let answer = self.drive_back(&mut state, &TryFoldTurn);
        let (value, _) = state;
        match answer {
            Ok(None) => match value {
                Some(value) => Ok(value),
                None => unreachable!(),
            },
            Ok(Some(e)) => Err(e),
            Err(e) => Err(E::from(e)),
        }
    }

    /// Calls the closure on the value so far and each item, the last one first, and returns the last value at `Ok(None)`.
    ///
    /// It draws from the back up to `Ok(None)`, the first failure or an item on which the closure fails. It fails with the iterator's failure, converted, or with the closure's error. Nothing is drawn after that, and the iterator may be used again, from either end.
    ///
    /// Precondition, which is not checked: the iterator is finite.
    ///
    /// ```
    /// # use fallible_iterator::{DoubleEndedFallibleIterator, convert};
    /// let mut it = convert([Ok::<u8, &str>(7), Ok(100), Ok(100), Ok(100)].into_iter());
    /// let sum: Result<u8, &str> = it.try_rfold(
    ///     0,
    ///     |sum: u8, x: u8| sum.checked_add(x).ok_or("too large"),
    /// );
    /// assert_eq!(sum, Err("too large"));
    /// assert_eq!(it.next_back(), Ok(Some(7)));
    /// ```
    ///
    /// <details><summary>Contract</summary>
    ///
    /// As it is proved, in [these words](crate::words):
    ///
    /// ```text
    /// requires can_next { ends.can_next self.old }
    /// requires finite { Self.contract.is_finite self.old }
    /// requires callable { CallableInFold ends.steps (call_with F.FnMut) (takes_with F.FnMut)
    ///     self.old f init }
    /// ensures folded { FoldDrains ends.steps (call_with F.FnMut) E.from_gives
    ///     self.old init f result self.new }
    /// ensures value { (convert : Self.Error → E) → Converts E.from_gives convert
    ///     → OverListWith (ActsWith (call_with F.FnMut) f) ends.steps self.old
    ///     (λ h l. result ≡ folded convert h init l) }
    /// ensures rest { (h : B → Self.Item → Result B E) (l : List (Result Self.Item Self.Error))
    ///     → ActsWith (call_with F.FnMut) f h
    ///     → ListsBothEnds Self.contract.steps ends.steps self.old l
    ///     → ListsBothEnds Self.contract.steps ends.steps self.new
    ///     (reverse (rest_fold h init (reverse l))) }
    /// ensures stays { Stays (from_back Self.contract ends) self.old self.new }
    /// ```
    /// </details>
    #[inline(always)]
    fn try_rfold<B, E, F>(&mut self, init: B, f: F) -> Result<B, E>
    where
        Self: Sized,
        E: From<Self::Error>,
        F: FnMut(B, Self::Item) -> Result<B, E>,
    {
        let mut f = f;
        let mut value = init;
        while let Some(x) = self.next_back()? {
            value = f(value, x)?;
        }
        Ok(value)
    }

    /// As `try_rfold`, but the closure fails with the iterator's own error, and the iterator is consumed.
    ///
    /// Draws and errors: as `try_rfold`, but no failure is converted.
    ///
    /// Precondition, which is not checked: the iterator is finite.
    ///
    /// ```
    /// # use fallible_iterator::{DoubleEndedFallibleIterator, convert};
    /// let digits = [Ok::<u32, u8>(1), Ok(2), Ok(3)];
    /// let read = convert(digits.into_iter()).rfold(0, |number: u32, digit: u32| {
    ///     Ok(number.wrapping_mul(10).wrapping_add(digit))
    /// });
    /// assert_eq!(read, Ok(321));
    /// ```
    ///
    /// <details><summary>Contract</summary>
    ///
    /// As it is proved, in [these words](crate::words):
    ///
    /// ```text
    /// requires can_next { ends.can_next self }
    /// requires finite { Self.contract.is_finite self }
    /// requires callable { CallableInFold ends.steps (call_with F.FnMut) (takes_with F.FnMut)
    ///     self f init }
    /// ensures folded { (left : Self) × FoldDrains ends.steps (call_with F.FnMut)
    ///     (λ e d. d ≡ e) self init f result left }
    /// ensures value { OverListWith (ActsWith (call_with F.FnMut) f) ends.steps self
    ///     (λ h l. result ≡ folded (λ e. e) h init l) }
    /// ```
    /// </details>
    fn rfold<B, F>(mut self, init: B, f: F) -> Result<B, Self::Error>
    where
        Self: Sized,
        F: FnMut(B, Self::Item) -> Result<B, Self::Error>,
    {
        self.try_rfold(init, f)
    }

    /// Returns what `next` returns. Of what is listed from both ends it is the first.
    ///
    /// It is one draw, and fails as `next` does. The iterator may be used again, from either end, where `draw` says it of the front alone. Of what is listed from both ends it leaves the rest.
    ///
    /// ```
    /// # use fallible_iterator::{DoubleEndedFallibleIterator, convert};
    /// let mut it = convert([Ok::<u32, u8>(1), Ok(2), Err(9)].into_iter());
    /// let drawn = [
    ///     it.draw_back(),
    ///     it.draw_front(),
    ///     it.draw_back(),
    ///     it.draw_back(),
    /// ];
    /// assert_eq!(drawn, [Err(9), Ok(Some(1)), Ok(Some(2)), Ok(None)]);
    /// ```
    ///
    /// <details><summary>Contract</summary>
    ///
    /// As it is proved, in [these words](crate::words):
    ///
    /// ```text
    /// requires { ends.can_next self.old }
    /// ensures drawn { Self.contract.steps self.old result self.new }
    /// ensures rest { (l : List (Result Self.Item Self.Error))
    ///     → ListsBothEnds Self.contract.steps ends.steps self.old l
    ///     → (result ≡ nth_of 0 l)
    ///     × ListsBothEnds Self.contract.steps ends.steps self.new (rest_first l) }
    /// ensures stays { Stays (from_front Self.contract ends) self.old self.new }
    /// ```
    /// </details>
    #[doc(hidden)]
    fn draw_front(&mut self) -> Result<Option<Self::Item>, Self::Error>
    where
        Self: Sized,
    {
        self.next()
    }

    /// Returns what `next_back` returns. Of what is listed from both ends it is the last.
    ///
    /// It is one draw, from the back, and fails as `next_back` does. The iterator may be used again, from either end. Of what is listed from both ends it leaves what stands before it.
    ///
    /// ```
    /// # use fallible_iterator::{DoubleEndedFallibleIterator, convert};
    /// let mut it = convert([Ok::<u32, u8>(1), Ok(2), Err(9)].into_iter());
    /// let drawn = [
    ///     it.draw_back(),
    ///     it.draw_front(),
    ///     it.draw_back(),
    ///     it.draw_back(),
    /// ];
    /// assert_eq!(drawn, [Err(9), Ok(Some(1)), Ok(Some(2)), Ok(None)]);
    /// ```
    ///
    /// <details><summary>Contract</summary>
    ///
    /// As it is proved, in [these words](crate::words):
    ///
    /// ```text
    /// requires { ends.can_next self.old }
    /// ensures drawn { ends.steps self.old result self.new }
    /// ensures rest { (l : List (Result Self.Item Self.Error))
    ///     → ListsBothEnds Self.contract.steps ends.steps self.old l
    ///     → (result ≡ nth_of 0 (reverse l))
    ///     × ListsBothEnds Self.contract.steps ends.steps self.new
    ///     (reverse (rest_first (reverse l))) }
    /// ensures stays { Stays (from_back Self.contract ends) self.old self.new }
    /// ```
    /// </details>
    #[doc(hidden)]
    fn draw_back(&mut self) -> Result<Option<Self::Item>, Self::Error>
    where
        Self: Sized,
    {
        self.next_back()
    }
}
