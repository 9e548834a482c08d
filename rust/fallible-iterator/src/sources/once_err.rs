// The source of one failure.

use crate::fallible_core::{DoubleEndedFallibleIterator, FallibleIterator};
use core::marker::PhantomData;

/// One failure. Then each call returns `Ok(None)`.
#[derive(Clone, Debug)]
#[must_use = "an iterator draws nothing until it is asked"]
pub struct OnceErr<T, E> {
    pub(crate) item_type: PhantomData<T>,
    pub(crate) error: Option<E>,
}

impl<T, E> FallibleIterator for OnceErr<T, E> {
    type Item = T;

    type Error = E;

    fn next(&mut self) -> Result<Option<T>, E> {
        match self.error.take() {
            Some(e) => Err(e),
            None => Ok(None),
        }
    }

    fn size_hint(&self) -> (usize, Option<usize>) {
        (0, Some(0))
    }
}

impl<T, E> DoubleEndedFallibleIterator for OnceErr<T, E> {
    fn next_back(&mut self) -> Result<Option<T>, E> {
        self.next()
    }
}
