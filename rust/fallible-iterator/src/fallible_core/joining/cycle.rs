// The adapter that starts anew at each `Ok(None)`.

use crate::fallible_core::traits::FallibleIterator;

/// What a run yields, and at its `Ok(None)` what a fresh clone of the kept source yields, and so on. The `Ok(None)` that closes a run isn't returned; an `Ok(None)` or a failure that a clone begins with is.
#[derive(Clone, Debug)]
#[must_use = "an iterator draws nothing until it is asked"]
pub struct Cycle<I> {
    // the current run
    pub(crate) it: I,
    // what each new run is a clone of
    pub(crate) kept: I,
}

impl<I: FallibleIterator + Clone> FallibleIterator for Cycle<I> {
    type Item = I::Item;

    type Error = I::Error;

    /// Draws the current run once. At `Ok(None)` it clones the kept source. The clone is the current run then, and is drawn once, whatever comes. The kept source stays in each case.
    fn next(&mut self) -> Result<Option<I::Item>, I::Error> {
        match self.it.next() {
            Ok(Some(x)) => Ok(Some(x)),
            Ok(None) => {
                self.it = self.kept.clone();
                self.it.next()
            }
            Err(e) => Err(e),
        }
    }

    fn size_hint(&self) -> (usize, Option<usize>) {
        let (low, _) = self.kept.size_hint();
        if low == 0 {
            (0, None)
        } else {
            (usize::MAX, None)
        }
    }
}
