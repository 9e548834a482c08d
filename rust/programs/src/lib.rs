#![doc = include_str!("../README.md")]
#![forbid(unsafe_code)]
// The bodies stay as they are proved, where a proof may count by a loop's variable.
#![allow(
    unused_variables,
    clippy::complexity,
    clippy::manual_unwrap_or_default,
    clippy::perf,
    clippy::style
)]

pub mod fallible_elf;
pub mod fallible_rows;
pub mod fallible_table;
