#![doc = include_str!("../README.md")]
#![no_std]
#![cfg_attr(docsrs, feature(doc_cfg))]
#![warn(missing_debug_implementations, missing_docs)]
#![forbid(unsafe_code)]
// The bodies stay as they are proved, where a proof may count by a loop's variable.
#![allow(
    unused_variables,
    clippy::complexity,
    clippy::manual_unwrap_or_default,
    clippy::perf,
    clippy::style
)]
#![cfg_attr(not(feature = "std"), allow(dead_code, unused_imports))]

extern crate alloc;
#[cfg(feature = "std")]
extern crate std;

mod base64;
#[cfg(feature = "std")]
mod buffering;
mod cells;
mod columns;
mod csv;
mod errors;
mod fault;
mod holding;
mod kind;
mod message;
mod messages;
mod numbers;
mod printing;
mod progress;
mod putting;
mod reading;
mod report;
mod rows;
mod scram;
mod sending;
mod strings;
mod text;
#[cfg(doc)]
pub mod words;

pub use cells::Cells;
pub use columns::{Column, Columns};
pub use fault::{Damage, PgFault};
#[cfg(feature = "std")]
pub use holding::HoldText;
pub use holding::RowText;
pub use kind::Kind;
pub use message::Message;
pub use messages::Messages;
pub use printing::PgInput;
#[cfg(feature = "std")]
pub use putting::PutBytes;
pub use reading::{Broken, ReadMessage};
#[cfg(feature = "std")]
pub use report::print_rows;
pub use rows::{Reply, Row, Rows};
pub use scram::{Answer, Hash, answer_of, scram_first_message};
pub use sending::{
    CancelKey, Request, Unsent, cancel_key_of, cancel_message, password_message, query_message,
    request_data, request_of, startup_message, terminate_message,
};
pub use text::Format;
#[cfg(feature = "std")]
pub use text::write_row;

#[cfg(feature = "std")]
pub use program_io::failed::WriteFailed;
#[cfg(feature = "std")]
pub use program_io::fault::RunFault;
pub use program_io::memory::AllocError;
#[cfg(feature = "std")]
pub use program_io::reading::Buffered;
pub use program_io::reading::{Bytes, Lent, ReadByte, ReadFailed};
