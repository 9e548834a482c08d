// The fallible iterator of a std iterator over results.

use crate::fallible_contract::folds::Turn;
use crate::fallible_core::{DoubleEndedFallibleIterator, FallibleIterator, Rev};
use crate::sources::std_fold::{AsResult, drive_back_std, drive_std};

/// The fallible iterator of a std iterator over results: each `Ok` is an item, each `Err` a failure, and `None` is `Ok(None)`.
#[derive(Clone, Debug)]
#[must_use = "an iterator draws nothing until it is asked"]
pub struct Convert<I> {
    pub(crate) it: I,
}

impl<T, E, I: core::iter::Iterator<Item = Result<T, E>>> FallibleIterator for Convert<I> {
    type Item = T;

    type Error = E;

    /// Draws the std iterator once.
    fn next(&mut self) -> Result<Option<T>, E> {
        transpose(self.it.next())
    }

    fn size_hint(&self) -> (usize, Option<usize>) {
        self.it.size_hint()
    }

    #[inline(always)]
    fn drive<C, R, K: Turn<C, T, R>>(&mut self, state: &mut C, turn: &K) -> Result<Option<R>, E> {
        drive_std(&mut self.it, &AsResult, state, turn)
    }

    #[inline(always)]
    fn try_fold<Value, Failed, Step>(&mut self, init: Value, mut f: Step) -> Result<Value, Failed>
    where
        Failed: From<E>,
        Step: FnMut(Value, T) -> Result<Value, Failed>,
    {
        self.it.try_fold(init, |value, element| match element {
            Ok(item) => f(value, item),
            Err(e) => Err(Failed::from(e)),
        })
    }
}

impl<T, E, I: core::iter::DoubleEndedIterator<Item = Result<T, E>>> DoubleEndedFallibleIterator
    for Convert<I>
{
    /// Draws the std iterator once from the back.
    fn next_back(&mut self) -> Result<Option<T>, E> {
        transpose(self.it.next_back())
    }

    #[inline(always)]
    fn drive_back<C, R, K: Turn<C, T, R>>(
        &mut self,
        state: &mut C,
        turn: &K,
    ) -> Result<Option<R>, E> {
        drive_back_std(&mut self.it, &AsResult, state, turn)
    }

    #[inline(always)]
    fn try_rfold<Value, Failed, Step>(&mut self, init: Value, mut f: Step) -> Result<Value, Failed>
    where
        Failed: From<E>,
        Step: FnMut(Value, T) -> Result<Value, Failed>,
    {
        self.it.try_rfold(init, |value, element| match element {
            Ok(item) => f(value, item),
            Err(e) => Err(Failed::from(e)),
        })
    }
}

// `rev` of the trait, which also says what a double-ended std iterator lists from the back.
impl<T, E, I: core::iter::DoubleEndedIterator<Item = Result<T, E>>> Convert<I> {
    /// Swaps the two ends: a draw from the front of the adapter is a draw from the back of the source, and the other way round.
    ///
    /// Creating it draws nothing. Each call draws once, from the other end. It fails as that draw does. After a failure and after `Ok(None)` the next call draws again.
    ///
    /// ```
    /// # use fallible_iterator::{FallibleIterator, convert};
    /// let readings = [Ok::<u32, u8>(150), Ok(7), Err(9)];
    /// let mut it = convert(readings.into_iter()).rev();
    /// let drawn = [it.next(), it.next(), it.next(), it.next()];
    /// assert_eq!(drawn, [Err(9), Ok(Some(7)), Ok(Some(150)), Ok(None)]);
    /// ```
    ///
    /// <details><summary>Contract</summary>
    ///
    /// As it is proved, in [these words](crate::words):
    ///
    /// ```text
    /// ensures parts { rev_parts result ≡ self }
    /// ensures lists { (l : List (Result T E))
    ///     → Lists ⟦<Convert<I> as DoubleEndedFallibleIterator>⟧.ends.steps self l
    ///     → Lists ⟦<Rev<Convert<I>> as FallibleIterator>⟧.contract.steps result l }
    /// ensures results_back { (l : List (Result T E))
    ///     → RunsReadBack I.next_back_gives (λ y. y) (convert_parts self) l
    ///     → Lists ⟦<Rev<Convert<I>> as FallibleIterator>⟧.contract.steps result
    ///     (reversed (results l)) }
    /// ensures items_back { (l : List T)
    ///     → RunsReadBack I.next_back_gives Ok (convert_parts self) l
    ///     → Lists ⟦<Rev<Convert<I>> as FallibleIterator>⟧.contract.steps result
    ///     (reversed (items l)) }
    /// ```
    /// </details>
    pub fn rev(self) -> Rev<Convert<I>> {
        FallibleIterator::rev(self)
    }
}

// What an element of the std iterator becomes: `Ok` an item, `Err` a failure, `None` an `Ok(None)`.
fn transpose<T, E>(element: Option<Result<T, E>>) -> Result<Option<T>, E> {
    match element {
        Some(Ok(x)) => Ok(Some(x)),
        Some(Err(e)) => Err(e),
        None => Ok(None),
    }
}
