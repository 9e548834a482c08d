//! The fold that gathers items, as the proved `collect` is one. The original's 0.2 has no `collect` into a `Vec` without its feature `std`.

use crate::base::drive::{Drive, whole};
use crate::base::fallible_contract::collecting::{CollectTurn, Extended};
use alloc::vec::Vec;
use fallible_iterator::FallibleIterator;

/// The items up to the end, or the first failure.
pub fn gathered<I: FallibleIterator>(mut it: I) -> Result<Vec<I::Item>, I::Error> {
    let mut made = Extended(Vec::new());
    whole(it.by_turns(&mut made, &CollectTurn))?;
    Ok(made.0)
}
