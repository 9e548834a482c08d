//! A table that a reader yields, which is summed up while it is read.

use crate::fallible_table::table::{NO_TOTALS, TableFault, Totals, sum_up_more};
use program_io::reading::{ReadBytes, read_after};
use std::io;
use std::io::ErrorKind;

// How many bytes a record has.
const RECORD: usize = 8;

// How many bytes are buffered at most.
const BUFFER: usize = 65536;

// How often is read at most, so that the place of each record fits a `usize`.
const READS: u64 = 281_474_976_710_656;

// How far the buffer is filled by a read after so many records: the first record is read alone.
fn filled_by_read(records: u64) -> usize {
    if records == 0 { RECORD } else { BUFFER }
}

// Moves those of the first `held` bytes that come after the whole records to the front. How many they are.
fn keep_cut(buffer: &mut [u8], held: usize) -> usize {
    let cut = held % RECORD;
    buffer.copy_within(held - cut..held, 0);
    cut
}

// Sums a table up, through the buffer, while it is read.
fn sum_up_read<R: ReadBytes>(
    reader: &mut R,
    buffer: &mut [u8],
) -> io::Result<Result<Totals, TableFault>> {
    let mut totals = NO_TOTALS;
    let mut held = 0;
    for read in 0..READS {
        match read_after(reader, buffer, held, filled_by_read(totals.records)) {
            Ok(0) => return Ok(sum_up_more(totals, &buffer[..held])),
            Ok(count) => {
                let filled = held + count;
                match sum_up_more(totals, &buffer[..filled - filled % RECORD]) {
                    Ok(more) => totals = more,
                    Err(fault) => return Ok(Err(fault)),
                }
                held = keep_cut(buffer, filled);
            }
            Err(e) => return Err(e),
        }
    }
    Err(io::Error::from(ErrorKind::TimedOut))
}

/// The totals of the table that a reader yields, up to its end, or its first fault. The first record is read alone. It reads no more once a record is bad. It fails if a read fails before, and with `TimedOut` after 2 ^ 48 reads. An interrupted read is tried again.
pub fn read_totals<R: ReadBytes>(reader: &mut R) -> io::Result<Result<Totals, TableFault>> {
    let mut buffer = [0u8; BUFFER];
    sum_up_read(reader, &mut buffer)
}
