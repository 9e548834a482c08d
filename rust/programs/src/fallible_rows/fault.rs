//! What may be wrong with rows, and how that is told.

use program_io::fault::{InputFault, write_placed};
use program_io::writing::WriteText;
use std::io;

/// Why a row is not known.
#[derive(Debug, PartialEq, Eq)]
pub enum RowFault {
    /// The row at this place, from 1, is not a number.
    Row(u32),
    /// A read failed.
    Read,
}

/// A row that is not a number.
#[derive(Clone, Copy, Debug, PartialEq, Eq)]
pub struct BadRow {
    /// Its place, from 1.
    pub place: u32,
}

impl InputFault for BadRow {
    /// 1
    fn status(&self) -> u8 {
        1
    }

    fn write_line<W: WriteText>(&self, errors: &mut W) -> io::Result<()> {
        write_placed("row", u64::from(self.place), "not a number", errors)
    }
}
