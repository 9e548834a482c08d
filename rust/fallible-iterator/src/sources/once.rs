// The source of one item.

use crate::fallible_core::{DoubleEndedFallibleIterator, FallibleIterator};
use core::marker::PhantomData;

/// One item. Then each call returns `Ok(None)`.
#[derive(Clone, Debug)]
#[must_use = "an iterator draws nothing until it is asked"]
pub struct Once<T, E> {
    pub(crate) value: Option<T>,
    pub(crate) error_type: PhantomData<E>,
}

impl<T, E> FallibleIterator for Once<T, E> {
    type Item = T;

    type Error = E;

    fn next(&mut self) -> Result<Option<T>, E> {
        Ok(self.value.take())
    }

    fn size_hint(&self) -> (usize, Option<usize>) {
        match &self.value {
            Some(_) => (1, Some(1)),
            None => (0, Some(0)),
        }
    }
}

impl<T, E> DoubleEndedFallibleIterator for Once<T, E> {
    fn next_back(&mut self) -> Result<Option<T>, E> {
        self.next()
    }
}
