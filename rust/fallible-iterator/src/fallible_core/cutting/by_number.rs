// The draws that skip items, and count down how many.

use crate::fallible_core::traits::FallibleIterator;

// Skips as many items as `to_skip` says, and returns the item after them, or a failure or an `Ok(None)` before it. Each skipped item lowers `to_skip` by one.
pub(crate) fn next_past<I: FallibleIterator>(
    it: &mut I,
    to_skip: &mut usize,
) -> Result<Option<I::Item>, I::Error> {
    loop {
        match it.next() {
            Ok(Some(x)) => {
                if *to_skip == 0 {
                    return Ok(Some(x));
                }
            }
            Ok(None) => return Ok(None),
            Err(e) => return Err(e),
        }
        *to_skip -= 1;
    }
}
