// The source of clones as items.

use crate::fallible_core::FallibleIterator;
use core::marker::PhantomData;

/// A clone of one value as each item. The value stays.
#[derive(Clone, Debug)]
#[must_use = "an iterator draws nothing until it is asked"]
pub struct Repeat<T, E> {
    pub(crate) value: T,
    pub(crate) error_type: PhantomData<E>,
}

impl<T: Clone, E> FallibleIterator for Repeat<T, E> {
    type Item = T;

    type Error = E;

    /// Clones the value once.
    fn next(&mut self) -> Result<Option<T>, E> {
        Ok(Some(self.value.clone()))
    }

    fn size_hint(&self) -> (usize, Option<usize>) {
        (usize::MAX, None)
    }
}
