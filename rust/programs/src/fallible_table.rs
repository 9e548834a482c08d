//! A binary table, records of two numbers of four bytes each, and its totals: of bytes, of a reader, and as a report.

pub mod reading;
pub mod report;
pub mod table;
