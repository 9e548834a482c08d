// The adapter that is exhausted at the first `Ok(None)`.

use crate::fallible_contract::folds::Turn;
use crate::fallible_core::traits::FallibleIterator;

/// What the source yields up to its first `Ok(None)`. From there on each call returns `Ok(None)`. A failure exhausts nothing.
#[derive(Clone, Debug)]
#[must_use = "an iterator draws nothing until it is asked"]
pub struct Fuse<I> {
    pub(crate) it: I,
    // whether the source returned `Ok(None)`
    pub(crate) ended: bool,
}

impl<I: FallibleIterator> FallibleIterator for Fuse<I> {
    type Item = I::Item;

    type Error = I::Error;

    /// Draws once, and nothing once the source returned `Ok(None)`.
    fn next(&mut self) -> Result<Option<I::Item>, I::Error> {
        if self.ended {
            return Ok(None);
        }
        match self.it.next()? {
            Some(x) => Ok(Some(x)),
            None => {
                self.ended = true;
                Ok(None)
            }
        }
    }

    fn size_hint(&self) -> (usize, Option<usize>) {
        if self.ended {
            (0, Some(0))
        } else {
            self.it.size_hint()
        }
    }

    #[inline(always)]
    fn drive<C, R, K: Turn<C, I::Item, R>>(
        &mut self,
        state: &mut C,
        turn: &K,
    ) -> Result<Option<R>, I::Error> {
        let Fuse { it, ended } = self;
        if *ended {
            return Ok(None);
        }
        match it.drive(state, turn) {
            Ok(Some(stop)) => Ok(Some(stop)),
            Ok(None) => {
                *ended = true;
                Ok(None)
            }
            Err(e) => Err(e),
        }
    }

    fn count(self) -> Result<usize, Self::Error> {
        if self.ended {
            return Ok(0);
        }
        self.it.count()
    }

    fn last(self) -> Result<Option<Self::Item>, Self::Error> {
        if self.ended {
            return Ok(None);
        }
        self.it.last()
    }

    fn nth(&mut self, n: usize) -> Result<Option<I::Item>, I::Error> {
        let Fuse { it, ended } = self;
        if *ended {
            return Ok(None);
        }
        match it.nth(n) {
            Ok(Some(x)) => Ok(Some(x)),
            Ok(None) => {
                *ended = true;
                Ok(None)
            }
            Err(e) => Err(e),
        }
    }

    crate::by_drive!(drive);
}
