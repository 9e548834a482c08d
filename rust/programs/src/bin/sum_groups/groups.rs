use program_io::memory::{AllocError, Fault, Global, TryCollect, TryVec};
// The rows of lines, in order, and their groups and batches, each printed as a line.

use crate::fault::{BadRow, GroupsFault, Wrong};
use fallible_iterator::FallibleIterator;
use fallible_iterator::convert;
use fallible_itertools::FallibleItertools;
use program_io::fault::RunFault;
use program_io::numbers::number_of;
use program_io::writing::WriteText;
use std::convert::Infallible;
use std::io;

/// How many rows a batch has.
const BATCH: usize = 3;

// A row: its key and its amount.
#[derive(Clone, Copy, Debug)]
pub(crate) struct Row {
    key: u64,
    amount: u64,
}

// The row that a line is, where it is one.
fn row_of(line: &str) -> Option<Row> {
    let (key, amount) = line.split_once(',')?;
    match (number_of(key), number_of(amount)) {
        (Some(key), Some(amount)) => Some(Row { key, amount }),
        _ => None,
    }
}

// Counts a line, keeps the key of the row that it is, and returns the row; or what is wrong, if none was found there, or its key is below that of the row before.
fn row_at(before: &mut (u64, u64), found: Option<Row>) -> Result<Option<Row>, BadRow> {
    let (lines, key) = *before;
    let place = lines.wrapping_add(1);
    let row = match found {
        Some(row) => row,
        _ => {
            *before = (place, key);
            return Err(BadRow {
                place,
                wrong: Wrong::NoRow,
            });
        }
    };
    *before = (place, row.key);
    if row.key < key {
        return Err(BadRow {
            place,
            wrong: Wrong::Unsorted,
        });
    }
    Ok(Some(row))
}

// The rows that were found, or the first line that is wrong.
fn rows_found<I: FallibleIterator<Item = Option<Row>, Error = BadRow>>(
    found: I,
) -> Result<Vec<Row>, Fault<BadRow>> {
    found.scan((0, 0), row_at).try_collect()
}

// The last of the rows that were found, or the first line that is wrong.
fn last_found<I: FallibleIterator<Item = Option<Row>, Error = BadRow>>(
    found: I,
) -> Result<Option<Row>, BadRow> {
    found.scan((0, 0), row_at).last()
}

// The rows that the lines of a text are, or the first line that is wrong.
fn rows_of(text: &str) -> Result<Vec<Row>, Fault<BadRow>> {
    rows_found(convert(text.lines().map(|line: &str| Ok(row_of(line)))))
}

// The last of the rows that the lines of a text are, or the first line that is wrong. It allocates nothing.
fn last_row(text: &str) -> Result<Option<Row>, BadRow> {
    last_found(convert(text.lines().map(|line: &str| Ok(row_of(line)))))
}

// The first line of a text that is wrong, if there is one. It allocates nothing.
pub(crate) fn bad_row_of(text: &str) -> Option<BadRow> {
    match last_row(text) {
        Ok(_) => None,
        Err(bad) => Some(bad),
    }
}

// How many lines end within bytes.
fn ended_lines(bytes: &[u8]) -> u64 {
    let mut count: u64 = 0;
    for byte in bytes {
        if *byte == b'\n' {
            count += 1;
        }
    }
    count
}

// The first fault of bytes that are no UTF-8, by the front that is: a line that is wrong and ends before the place where the front does, or that place. It allocates nothing.
pub(crate) fn fault_before(front: &str, place: usize) -> GroupsFault {
    match bad_row_of(front) {
        Some(bad) if bad.place <= ended_lines(front.as_bytes()) => GroupsFault::Row(bad),
        _ => GroupsFault::NotText(place),
    }
}

// The sum of the amounts, where it fits.
fn sum_of(rows: &[Row]) -> Result<Option<u64>, Infallible> {
    convert(rows.iter().copied().map(Ok))
        .map(|row: Row| Ok(row.amount))
        .checked_sum()
}

// Writes the line of some rows under a name.
fn write_line<W: WriteText>(report: &mut W, name: u64, rows: &[Row]) -> io::Result<()> {
    let many = rows.len();
    match sum_of(rows) {
        Ok(Some(sum)) => report.write_text(format_args!("{name}: {many} rows, {sum}\n")),
        Ok(None) => report.write_text(format_args!("{name}: {many} rows, too large\n")),
        Err(never) => match never {},
    }
}

// The report with the line of some rows after it, under a name.
fn print_line(
    mut report: Vec<u8>,
    name: u64,
    rows: &[Row],
) -> Result<Vec<u8>, RunFault<GroupsFault>> {
    match write_line(&mut program_io::memory::VecWriter(&mut report), name, rows) {
        Ok(()) => Ok(report),
        // No memory: writing to a vector fails only if an allocation does.
        Err(_) => Err(RunFault::Memory),
    }
}

// The report with one line a group of adjacent rows of one key after it.
fn print_groups(report: Vec<u8>, rows: &[Row]) -> Result<Vec<u8>, RunFault<GroupsFault>> {
    convert::<Row, AllocError, _>(rows.iter().copied().map(Ok))
        .chunk_by(|row: &Row| Ok(row.key))
        .try_fold(report, |report: Vec<u8>, group: (u64, Vec<Row>)| {
            print_line(report, group.0, group.1.as_slice())
        })
}

// The report with one line a batch of three rows after it, under the key of its first row.
fn print_batches(report: Vec<u8>, rows: &[Row]) -> Result<Vec<u8>, RunFault<GroupsFault>> {
    convert::<Row, AllocError, _>(rows.iter().copied().map(Ok))
        .chunks(BATCH)
        .try_fold(report, |report: Vec<u8>, batch: Vec<Row>| {
            print_line(report, first_key(batch.as_slice()), batch.as_slice())
        })
}

// The key of the first row, 0 of none.
fn first_key(rows: &[Row]) -> u64 {
    match rows.first() {
        Some(row) => row.key,
        None => 0,
    }
}

// The groups and then the batches of rows, each under a heading.
fn print_both(rows: &[Row]) -> Result<Vec<u8>, RunFault<GroupsFault>> {
    let heading = Vec::try_from_slice(b"groups\n")?;
    let mut groups = print_groups(heading, rows)?;
    groups.try_extend_from_slice(b"batches\n")?;
    print_batches(groups, rows)
}

// Why a text has no report, where memory was refused: the first line that is wrong, or otherwise that.
fn fault_of(text: &str) -> RunFault<GroupsFault> {
    match bad_row_of(text) {
        Some(bad) => RunFault::Input(GroupsFault::Row(bad)),
        // No memory: it is asked only where an allocation failed.
        None => RunFault::Memory,
    }
}

// Something that makes reports in memory.
pub(crate) trait MakeReport {
    // The report of the rows that the lines of a text are, or the first line that is wrong.
    fn report_of(&self, text: &str) -> Result<Vec<u8>, RunFault<GroupsFault>>;
}

impl MakeReport for Global {
    fn report_of(&self, text: &str) -> Result<Vec<u8>, RunFault<GroupsFault>> {
        let rows = match rows_of(text) {
            Ok(rows) => rows,
            Err(Fault::Source(bad)) => return Err(RunFault::Input(GroupsFault::Row(bad))),
            Err(Fault::Memory(_)) => return Err(fault_of(text)),
        };
        print_both(rows.as_slice())
    }
}
