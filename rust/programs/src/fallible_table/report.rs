//! The totals of a table that a reader yields, as lines of text.

use crate::fallible_table::reading::read_totals;
use crate::fallible_table::table::{TableFault, Totals};
use program_io::fault::{InputFault, RunFault, fault_of_read, write_placed};
use program_io::reading::ReadBytes;
use program_io::writing::WriteText;
use std::io;

// Writes the totals.
fn write_report<W: WriteText>(totals: Totals, writer: &mut W) -> io::Result<()> {
    writer.write_text(format_args!(
        "records {}\nlow {}\nhigh {}\n",
        totals.records, totals.low, totals.high
    ))
}

/// Reads a table from `reader`, which may be any reader of std, and writes its totals to `writer`. The first record is read alone, the others through a buffer. It fails with `Input` at the first record that isn't good, and reads no more then, or where the table ends within a record; with `Read` where a read fails before; with `Memory` if that is for want of memory; and with `Write` where the writer fails. An interrupted read is tried again.
///
/// After `Ok` and `Write`, and after `Input` of a record cut short, the reader is at its end. After a bad record it has lost at most 65,528 bytes that come after the record, and none after a first one. Only at `Ok` and `Write` may something have been written.
pub fn run<R: ReadBytes, W: WriteText>(
    reader: &mut R,
    writer: &mut W,
) -> Result<(), RunFault<TableFault>> {
    let totals = match read_totals(reader) {
        Ok(Ok(totals)) => totals,
        Ok(Err(fault)) => return Err(RunFault::Input(fault)),
        Err(e) => return Err(fault_of_read(e)),
    };
    match write_report(totals, writer) {
        Ok(()) => Ok(()),
        Err(error) => Err(RunFault::Write(error.into())),
    }
}

impl InputFault for TableFault {
    /// 1 for a bad record, and 5 for one that is cut short.
    fn status(&self) -> u8 {
        match self {
            TableFault::Bad(_) => 1,
            TableFault::Cut(_) => 5,
        }
    }

    fn write_line<W: WriteText>(&self, errors: &mut W) -> io::Result<()> {
        match self {
            TableFault::Bad(place) => {
                let text = "the first number is above the second";
                write_placed("record", *place as u64, text, errors)
            }
            TableFault::Cut(place) => write_placed("record", *place as u64, "cut short", errors),
        }
    }
}
