// The adapter that ends after a number of items.

use crate::fallible_contract::hints::up_to;
use crate::fallible_core::traits::FallibleIterator;

/// What the source yields up to its n-th item. Then each call returns `Ok(None)`. Failures and `Ok(None)` of the source pass, and don't count.
#[derive(Clone, Debug)]
#[must_use = "an iterator draws nothing until it is asked"]
pub struct Take<I> {
    pub(crate) it: I,
    // how many items are still to be taken
    pub(crate) to_take: usize,
}

impl<I: FallibleIterator> FallibleIterator for Take<I> {
    type Item = I::Item;

    type Error = I::Error;

    /// Draws once, and nothing if no item is left to take.
    fn next(&mut self) -> Result<Option<I::Item>, I::Error> {
        if self.to_take == 0 {
            return Ok(None);
        }
        match self.it.next()? {
            Some(x) => {
                self.to_take -= 1;
                Ok(Some(x))
            }
            None => Ok(None),
        }
    }

    fn size_hint(&self) -> (usize, Option<usize>) {
        up_to(self.it.size_hint(), self.to_take)
    }
}
