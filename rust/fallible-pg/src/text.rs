//! Rows as text.

use crate::cells::Cells;
use crate::csv;
#[cfg(feature = "std")]
use crate::putting::PutBytes;
use crate::rows::Row;
use fallible_iterator::FallibleIterator;
#[cfg(feature = "std")]
use program_io::writing::WriteText;
#[cfg(feature = "std")]
use std::io;

/// In which form rows are printed.
#[derive(Clone, Copy, Debug, PartialEq, Eq)]
pub struct Format<'a> {
    /// What a NULL is printed as.
    pub null: &'a [u8],
    /// Whether cells are fields of CSV, with a comma between each two; else they stand as they are, with a bar between.
    pub csv: bool,
}

impl<'a> Format<'a> {
    // What a cell has: its bytes, and what a NULL is printed as.
    fn shown(self, cell: Option<&'a [u8]>) -> &'a [u8] {
        match cell {
            Some(bytes) => bytes,
            None => self.null,
        }
    }

    // What stands between two cells.
    fn separator(self) -> u8 {
        if self.csv { b',' } else { b'|' }
    }
}

// Writes what a cell has.
#[cfg(feature = "std")]
fn write_shown<P: PutBytes>(format: Format<'_>, field: &[u8], writer: &mut P) -> io::Result<()> {
    if format.csv {
        csv::write_field(field, writer)
    } else {
        writer.put_bytes(field)
    }
}

// Writes a cell.
#[cfg(feature = "std")]
fn write_cell<P: PutBytes>(
    format: Format<'_>,
    cell: Option<&[u8]>,
    writer: &mut P,
) -> io::Result<()> {
    write_shown(format, format.shown(cell), writer)
}

// Writes a separator and a cell.
#[cfg(feature = "std")]
fn write_further_cell<P: PutBytes>(
    format: Format<'_>,
    cell: Option<&[u8]>,
    writer: &mut P,
) -> io::Result<()> {
    writer.put_bytes(&[format.separator()])?;
    write_cell(format, cell, writer)
}

// Writes the further cells, a separator before each, and a newline.
#[cfg(feature = "std")]
fn write_further<P: PutBytes>(
    format: Format<'_>,
    cells: &mut Cells<'_>,
    writer: &mut P,
) -> io::Result<()> {
    let count = cells.left();
    for _ in 0..count {
        match cells.next() {
            Ok(Some(cell)) => match write_further_cell(format, cell, writer) {
                Ok(()) => {}
                Err(error) => return Err(error),
            },
            Ok(None) => return writer.put_bytes(b"\n"),
            Err(_) => return writer.put_bytes(b"\n"),
        }
    }
    writer.put_bytes(b"\n")
}

// Puts the text of a row.
#[cfg(feature = "std")]
pub(crate) fn put_row<P: PutBytes>(
    row: &Row,
    format: Format<'_>,
    writer: &mut P,
) -> io::Result<()> {
    let mut cells = row.cells();
    match cells.next() {
        Ok(Some(cell)) => match write_cell(format, cell, writer) {
            Ok(()) => write_further(format, &mut cells, writer),
            Err(error) => Err(error),
        },
        Ok(None) => Ok(()),
        Err(_) => Ok(()),
    }
}

/// Writes a row as `psql -A -t` does, or as `psql --csv -t` does: its cells with a separator between each two, and a newline. A row without cells is nothing.
///
/// <details><summary>Contract</summary>
///
/// As it is proved, in [these words](crate::words):
///
/// ```text
/// ensures whole { OnOk result (Appends (W.written writer.old) (W.written writer.new)
///     (row_text (form_of format.entry) (message_bytes row.now.message))) }
/// ensures failed { OnErr result (W.failed writer.new) }
/// ```
/// </details>
#[cfg(feature = "std")]
pub fn write_row<W: WriteText>(row: &Row, format: Format<'_>, writer: &mut W) -> io::Result<()> {
    put_row(row, format, writer)
}
