// The source of nothing.

use crate::fallible_core::{DoubleEndedFallibleIterator, FallibleIterator};
use core::marker::PhantomData;

/// Yields nothing: each call returns `Ok(None)`.
#[derive(Clone, Debug)]
#[must_use = "an iterator draws nothing until it is asked"]
pub struct Empty<T, E> {
    pub(crate) item_type: PhantomData<T>,
    pub(crate) error_type: PhantomData<E>,
}

impl<T, E> FallibleIterator for Empty<T, E> {
    type Item = T;

    type Error = E;

    fn next(&mut self) -> Result<Option<T>, E> {
        Ok(None)
    }

    fn size_hint(&self) -> (usize, Option<usize>) {
        (0, Some(0))
    }
}

impl<T, E> DoubleEndedFallibleIterator for Empty<T, E> {
    fn next_back(&mut self) -> Result<Option<T>, E> {
        Ok(None)
    }
}
