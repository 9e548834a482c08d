//! The sum of rows.

use crate::fallible_rows::fault::RowFault;
use crate::fallible_rows::rows::Rows;
use fallible_iterator::FallibleIterator;
use program_io::reading::Bytes;

/// The sum of the first n rows of these bytes, modulo 2 ^ 64. It fails with `Row` of the place, from 1, of the first of them that is no number.
pub fn sum_of_rows(bytes: &[u8], n: usize) -> Result<u64, RowFault> {
    Rows::new(Bytes::new(bytes))
        .take(n)
        .fold(0, |sum: u64, number: u64| Ok(sum.wrapping_add(number)))
}
