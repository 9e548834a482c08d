// The fallible iterator of a std iterator over any values.

use crate::fallible_contract::folds::Turn;
use crate::fallible_core::{DoubleEndedFallibleIterator, FallibleIterator, Rev};
use crate::sources::std_fold::{AsItem, drive_back_std, drive_std};
use core::convert::Infallible;

/// The fallible iterator of a std iterator over any values: each is an item, and `None` is `Ok(None)`. It never fails.
#[derive(Clone, Debug)]
#[must_use = "an iterator draws nothing until it is asked"]
pub struct IntoFallible<I> {
    pub(crate) it: I,
}

impl<T, I: core::iter::Iterator<Item = T>> FallibleIterator for IntoFallible<I> {
    type Item = T;

    type Error = Infallible;

    /// Draws the std iterator once.
    fn next(&mut self) -> Result<Option<T>, Infallible> {
        Ok(self.it.next())
    }

    fn size_hint(&self) -> (usize, Option<usize>) {
        self.it.size_hint()
    }

    #[inline(always)]
    fn drive<C, R, K: Turn<C, T, R>>(
        &mut self,
        state: &mut C,
        turn: &K,
    ) -> Result<Option<R>, Infallible> {
        drive_std(&mut self.it, &AsItem, state, turn)
    }

    #[inline(always)]
    fn try_fold<Value, Failed, Step>(&mut self, init: Value, f: Step) -> Result<Value, Failed>
    where
        Failed: From<Infallible>,
        Step: FnMut(Value, T) -> Result<Value, Failed>,
    {
        self.it.try_fold(init, f)
    }
}

impl<T, I: core::iter::DoubleEndedIterator<Item = T>> DoubleEndedFallibleIterator
    for IntoFallible<I>
{
    /// Draws the std iterator once from the back.
    fn next_back(&mut self) -> Result<Option<T>, Infallible> {
        Ok(self.it.next_back())
    }

    #[inline(always)]
    fn drive_back<C, R, K: Turn<C, T, R>>(
        &mut self,
        state: &mut C,
        turn: &K,
    ) -> Result<Option<R>, Infallible> {
        drive_back_std(&mut self.it, &AsItem, state, turn)
    }

    #[inline(always)]
    fn try_rfold<Value, Failed, Step>(&mut self, init: Value, f: Step) -> Result<Value, Failed>
    where
        Failed: From<Infallible>,
        Step: FnMut(Value, T) -> Result<Value, Failed>,
    {
        self.it.try_rfold(init, f)
    }
}

// `rev` of the trait, which also says what a double-ended std iterator lists from the back.
impl<T, I: core::iter::DoubleEndedIterator<Item = T>> IntoFallible<I> {
    /// Swaps the two ends: a draw from the front of the adapter is a draw from the back of the source, and the other way round.
    ///
    /// Creating it draws nothing. Each call draws once, from the other end. It fails as that draw does. After a failure and after `Ok(None)` the next call draws again.
    ///
    /// ```
    /// # use fallible_iterator::{FallibleIterator, IntoFallible};
    /// let mut it = IntoFallible::from(1..4u32).rev();
    /// assert_eq!([it.next(), it.next(), it.next()],
    ///     [Ok(Some(3)), Ok(Some(2)), Ok(Some(1))]
    /// );
    /// ```
    ///
    /// <details><summary>Contract</summary>
    ///
    /// As it is proved, in [these words](crate::words):
    ///
    /// ```text
    /// ensures parts { rev_parts result ≡ self }
    /// ensures lists { (l : List (Result T Infallible))
    ///     → Lists ⟦<IntoFallible<I> as DoubleEndedFallibleIterator>⟧.ends.steps self l
    ///     → Lists ⟦<Rev<IntoFallible<I>> as FallibleIterator>⟧.contract.steps result l }
    /// ensures lists_back { (l : List T)
    ///     → RunsReadBack I.next_back_gives (λ x. x) (into_fallible_parts self) l
    ///     → Lists ⟦<Rev<IntoFallible<I>> as FallibleIterator>⟧.contract.steps result
    ///     (reversed (items l)) }
    /// ```
    /// </details>
    pub fn rev(self) -> Rev<IntoFallible<I>> {
        FallibleIterator::rev(self)
    }
}

impl<T, I: core::iter::Iterator<Item = T>> From<I> for IntoFallible<I> {
    /// Returns the fallible iterator that yields the elements of a std iterator, as `into_fallible`.
    ///
    /// Creating it draws nothing. `next` draws the std iterator once. It never fails. After `Ok(None)` the next call draws the std iterator again.
    ///
    /// ```
    /// # use fallible_iterator::{FallibleIterator, IntoFallible};
    /// let mut it = IntoFallible::from(0..2u32);
    /// assert_eq!([it.next(), it.next(), it.next()],
    ///     [Ok(Some(0)), Ok(Some(1)), Ok(None)]
    /// );
    /// ```
    fn from(it: I) -> IntoFallible<I> {
        IntoFallible { it }
    }
}
