// The fallible iterator of a closure.

use crate::fallible_core::FallibleIterator;

/// The fallible iterator of a closure: each `next` is one call, and returns what the closure returns.
#[derive(Clone, Debug)]
#[must_use = "an iterator draws nothing until it is asked"]
pub struct FromFn<F> {
    pub(crate) fun: F,
}

impl<T, E, F: FnMut() -> Result<Option<T>, E>> FallibleIterator for FromFn<F> {
    type Item = T;

    type Error = E;

    /// Calls the closure once.
    fn next(&mut self) -> Result<Option<T>, E> {
        (self.fun)()
    }

    fn size_hint(&self) -> (usize, Option<usize>) {
        (0, None)
    }
}
