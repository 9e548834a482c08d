// The adapter that pairs the items of two sources.

use crate::fallible_contract::hints::smaller;
use crate::fallible_core::traits::FallibleIterator;

/// The pairs of the left's items and the right's, position by position. A failure of either side is yielded. Otherwise an `Ok(None)` of either side is returned. An item beside a failure or an `Ok(None)` is lost.
#[derive(Clone, Debug)]
#[must_use = "an iterator draws nothing until it is asked"]
pub struct Zip<T, U> {
    pub(crate) left: T,
    pub(crate) right: U,
}

impl<T: FallibleIterator, U: FallibleIterator<Error = T::Error>> FallibleIterator for Zip<T, U> {
    type Item = (T::Item, U::Item);

    type Error = T::Error;

    /// Draws the left once, and then, unless that failed, the right once.
    fn next(&mut self) -> Result<Option<(T::Item, U::Item)>, T::Error> {
        let left = self.left.next()?;
        let right = self.right.next()?;
        match (left, right) {
            (Some(x), Some(y)) => Ok(Some((x, y))),
            (Some(_), None) => Ok(None),
            (None, _) => Ok(None),
        }
    }

    fn size_hint(&self) -> (usize, Option<usize>) {
        smaller(self.left.size_hint(), self.right.size_hint())
    }
}
