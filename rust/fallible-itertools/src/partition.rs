//! Items and failures apart, values of two kinds to two collections, and what came before the first failure.

use crate::base::AllocError;
use crate::base::Collect;
use core::convert::Infallible;
use fallible_iterator::FallibleIterator;

/// Each item of the source as an `Either::Left`, and each failure as an `Either::Right`. It never fails.
pub(crate) struct Parted<I> {
    /// the source
    pub it: I,
}

impl<I: FallibleIterator> FallibleIterator for Parted<I> {
    type Item = Either<I::Item, I::Error>;

    type Error = Infallible;

    /// Draws once.
    fn next(&mut self) -> Result<Option<Either<I::Item, I::Error>>, Infallible> {
        match self.it.next() {
            Ok(Some(x)) => Ok(Some(Either::Left(x))),
            Ok(None) => Ok(None),
            Err(e) => Ok(Some(Either::Right(e))),
        }
    }

    fn size_hint(&self) -> (usize, Option<usize>) {
        (0, None)
    }
}

/// A value of the left or of the right.
#[derive(Clone, Copy, Debug, PartialEq, Eq, Hash)]
pub enum Either<A, B> {
    /// a value of the left
    Left(A),
    /// a value of the right
    Right(B),
}

// The first collection takes the values of each `Left`, and the second those of each `Right`.
impl<A, B, L: Collect<A>, R: Collect<B>> Collect<Either<A, B>> for (L, R) {
    fn push_one(&mut self, item: Either<A, B>) -> Result<(), AllocError> {
        match item {
            Either::Left(x) => self.0.push_one(x),
            Either::Right(y) => self.1.push_one(y),
        }
    }
}
