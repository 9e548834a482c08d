// The source of clones as failures.

use crate::fallible_core::FallibleIterator;
use core::marker::PhantomData;

/// A clone of one error as each failure. The error stays.
#[derive(Clone, Debug)]
#[must_use = "an iterator draws nothing until it is asked"]
pub struct RepeatErr<T, E> {
    pub(crate) item_type: PhantomData<T>,
    pub(crate) error: E,
}

impl<T, E: Clone> FallibleIterator for RepeatErr<T, E> {
    type Item = T;

    type Error = E;

    /// Clones the error once.
    fn next(&mut self) -> Result<Option<T>, E> {
        Err(self.error.clone())
    }

    fn size_hint(&self) -> (usize, Option<usize>) {
        (0, Some(0))
    }
}
