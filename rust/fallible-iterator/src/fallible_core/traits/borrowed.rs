// A `&mut` of a fallible iterator draws from it.

use crate::fallible_core::traits::FallibleIterator;
use crate::fallible_core::traits::double_ended::DoubleEndedFallibleIterator;

impl<I: FallibleIterator + ?Sized> FallibleIterator for &mut I {
    type Item = I::Item;

    type Error = I::Error;

    fn next(&mut self) -> Result<Option<I::Item>, I::Error> {
        (**self).next()
    }

    fn size_hint(&self) -> (usize, Option<usize>) {
        (**self).size_hint()
    }

    fn nth(&mut self, n: usize) -> Result<Option<I::Item>, I::Error> {
        (**self).nth(n)
    }
}

impl<I: DoubleEndedFallibleIterator + ?Sized> DoubleEndedFallibleIterator for &mut I {
    fn next_back(&mut self) -> Result<Option<I::Item>, I::Error> {
        (**self).next_back()
    }
}
