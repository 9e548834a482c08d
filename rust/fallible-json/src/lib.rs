#![doc = include_str!("../README.md")]
#![no_std]
#![cfg_attr(docsrs, feature(doc_cfg))]
#![warn(missing_debug_implementations, missing_docs)]
#![forbid(unsafe_code)]
// The bodies stay as they are proved, where a proof may count by a loop's variable.
#![allow(
    unused_variables,
    clippy::complexity,
    clippy::manual_unwrap_or_default,
    clippy::perf,
    clippy::style
)]
#![cfg_attr(not(feature = "std"), allow(dead_code, unused_imports))]

extern crate alloc;
#[cfg(feature = "std")]
extern crate std;

mod bytes;
mod calls;
mod checked;
mod errors;
mod fault;
mod grammar;
mod json;
mod lexer;
mod making;
mod minifying;
mod place;
mod report;
mod text;
mod texts;
mod token;
mod wanted;
#[cfg(doc)]
pub mod words;

pub use bytes::PlacedBytes;
pub use checked::{CheckedToken, CheckedTokens, Kind, TokenFault};
pub use fault::{JsonFault, TextFault};
pub use lexer::{LexFault, Tokens};
pub use minifying::Misplaced;
pub use place::place_of;
pub use report::Prints;
pub use token::Token;
pub use wanted::Wanted;

#[cfg(feature = "std")]
pub use calls::run;
pub use calls::{Texts, Unminified, json_of, minify};
#[cfg(feature = "std")]
pub use program_io::failed::{ReadFailed, WriteFailed};
#[cfg(feature = "std")]
pub use program_io::fault::RunFault;
pub use program_io::memory::{AllocError, Fault};

// What the program `json_tokens` goes by.
#[cfg(feature = "std")]
#[doc(hidden)]
pub mod programs {
    pub use crate::making::MakeTexts;
    pub use crate::report::run;
}
