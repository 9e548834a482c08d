//! How many rows are above 100.

use crate::fallible_rows::fault::RowFault;
use crate::fallible_rows::rows::Rows;
use fallible_iterator::FallibleIterator;
use program_io::reading::{Lent, ReadByte};

// How many rows are looked at.
const MAX_ROWS: usize = 1_000_000;

// A row counts where it is above this.
const LIMIT: u64 = 100;

// How many of the first `MAX_ROWS` rows are above `LIMIT`. `Row` of the place, from 1, of the first of
// them that is not a number; `Read` where a read fails before.
pub(crate) fn count_above<R: ReadByte>(reader: &mut R) -> Result<usize, RowFault> {
    let mut above = Rows::new(Lent { reader })
        .take(MAX_ROWS)
        .filter(|number| Ok(*number > LIMIT));
    // `count` would consume the chain, and tell nothing of what it leaves of the reader.
    let one_more = |count: usize, _: u64| -> Result<usize, RowFault> { Ok(count + 1) };
    above.try_fold(0, one_more)
}
