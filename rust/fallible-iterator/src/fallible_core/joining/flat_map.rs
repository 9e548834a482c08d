// The adapter that yields what the inner iterators yield which a closure makes.

use crate::fallible_contract::folds::Turn;
use crate::fallible_core::joining::flatten::{drive_joined, next_joined};
use crate::fallible_core::one_to_one::Map;
use crate::fallible_core::traits::FallibleIterator;
use crate::fallible_core::traits::conversion::IntoFallibleIterator;
use core::marker::PhantomData;

/// What the inner iterators yield that the closure makes of the items, as `Flatten`. `J` is what a result of the closure becomes, and no caller writes it. If the closure fails, its failure is yielded, and that item is lost.
#[must_use = "an iterator draws nothing until it is asked"]
pub struct FlatMap<I, U, F, J = <U as IntoFallibleIterator>::IntoFallibleIter> {
    pub(crate) it: Map<I, F>,
    pub(crate) in_hand: Option<J>,
    pub(crate) made: PhantomData<fn() -> U>,
}

impl<
    U: IntoFallibleIterator,
    I: FallibleIterator<Error = U::Error>,
    F: FnMut(I::Item) -> Result<U, U::Error>,
> FallibleIterator for FlatMap<I, U, F>
{
    type Item = U::Item;

    type Error = U::Error;

    /// Draws as `Flatten` does, and calls the closure once on each item that it draws.
    fn next(&mut self) -> Result<Option<U::Item>, U::Error> {
        next_joined(&mut self.it, &mut self.in_hand)
    }

    fn size_hint(&self) -> (usize, Option<usize>) {
        (0, None)
    }

    /// The fold of the current inner iterator, and after its `Ok(None)`, in the same call, that of the source, of whose items the closure makes inner iterators.
    #[inline(always)]
    fn drive<C, R, K: Turn<C, U::Item, R>>(
        &mut self,
        state: &mut C,
        turn: &K,
    ) -> Result<Option<R>, U::Error> {
        drive_joined(&mut self.it, &mut self.in_hand, state, turn)
    }

    crate::by_drive!(drive);
}

impl<I: Clone, U, F: Clone, J: Clone> Clone for FlatMap<I, U, F, J> {
    fn clone(&self) -> Self {
        FlatMap {
            it: self.it.clone(),
            in_hand: self.in_hand.clone(),
            made: PhantomData,
        }
    }
}

impl<I: core::fmt::Debug, U, F, J: core::fmt::Debug> core::fmt::Debug for FlatMap<I, U, F, J> {
    fn fmt(&self, f: &mut core::fmt::Formatter<'_>) -> core::fmt::Result {
        f.debug_struct("FlatMap")
            .field("it", &self.it)
            .field("in_hand", &self.in_hand)
            .finish()
    }
}
