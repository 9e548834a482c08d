//! Prints the groups and the batches of rows as the program `sum_groups` does, by straightforward loops.
//!
//! As that does, it keeps the text, its rows and the report in memory.
use std::error::Error;
use std::fmt::Write as _;
use std::io::{self, Read, Write as _};

/// How many rows a batch has.
const BATCH: usize = 3;

/// A row: its key and its amount.
struct Row {
    key: u64,
    amount: u64,
}

/// The row that a line is, where it is one.
fn row_of(line: &str) -> Option<Row> {
    let (key, amount) = line.split_once(',')?;
    Some(Row {
        key: key.parse().ok()?,
        amount: amount.parse().ok()?,
    })
}

/// The rows that the lines of a text are.
fn rows_of(text: &str) -> Result<Vec<Row>, String> {
    let mut rows = Vec::new();
    for (before, line) in text.lines().enumerate() {
        match row_of(line) {
            Some(row) => rows.push(row),
            None => return Err(format!("row {}: not a key and an amount", before + 1)),
        }
    }
    Ok(rows)
}

/// The sum of the amounts, where it fits.
fn sum_of(rows: &[Row]) -> Option<u64> {
    let mut sum = 0u64;
    for row in rows {
        sum = sum.checked_add(row.amount)?;
    }
    Some(sum)
}

/// Appends the line of some rows of which there is one, under the key of the first.
fn print_line(report: &mut String, rows: &[Row]) -> std::fmt::Result {
    let (key, count) = (rows[0].key, rows.len());
    match sum_of(rows) {
        Some(sum) => writeln!(report, "{key}: {count} rows, {sum}"),
        None => writeln!(report, "{key}: {count} rows, too large"),
    }
}

/// The groups of adjacent rows with one key, and then the batches.
fn report_of(rows: &[Row]) -> Result<String, std::fmt::Error> {
    let mut report = String::new();
    let mut first = 0;
    for end in 1..=rows.len() {
        if end == rows.len() || rows[end].key != rows[first].key {
            print_line(&mut report, &rows[first..end])?;
            first = end;
        }
    }
    for batch in rows.chunks(BATCH) {
        print_line(&mut report, batch)?;
    }
    Ok(report)
}

fn main() -> Result<(), Box<dyn Error>> {
    let mut text = String::new();
    io::stdin().lock().read_to_string(&mut text)?;
    let report = report_of(&rows_of(&text)?)?;
    io::stdout().write_all(report.as_bytes())?;
    Ok(())
}
