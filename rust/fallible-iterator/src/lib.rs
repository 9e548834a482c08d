#![doc = include_str!("../README.md")]
#![no_std]
#![cfg_attr(docsrs, feature(doc_cfg))]
#![forbid(unsafe_code)]
#![warn(missing_docs)]
// An example imports what its lines use.
#![doc(test(attr(deny(unused_imports))))]
// The bodies stay as they are proved.
#![allow(
    clippy::manual_map,
    clippy::mem_replace_option_with_some,
    clippy::multiple_bound_locations
)]
#![allow(clippy::needless_match, clippy::question_mark, clippy::single_match)]
#![allow(clippy::type_complexity, clippy::wrong_self_convention)]

#[cfg(feature = "alloc")]
extern crate alloc;
#[cfg(feature = "std")]
extern crate std;

mod by_drive;
mod conversion;
#[doc(hidden)]
pub mod fallible_contract;
#[doc(hidden)]
pub mod fallible_core;
#[doc(hidden)]
pub mod memory;
pub mod prelude;
mod sources;
mod taking;
#[cfg(doc)]
pub mod words;

#[doc(hidden)]
pub use crate::fallible_contract::answers::{Answer, Side};
#[doc(hidden)]
pub use crate::fallible_contract::folds::Turn;
#[doc(hidden)]
pub use crate::fallible_contract::{Collect, Fault};
pub use crate::fallible_core::{
    Chain, Cloned, Cycle, DoubleEndedFallibleIterator, Enumerate, FallibleIterator, Filter,
    FilterMap, FlatMap, Flatten, Fuse, Inspect, IntoFallibleIterator, Iterator, Map, MapErr,
    MapWhile, Peekable, Rev, Scan, Skip, SkipWhile, StepBy, Take, TakeWhile, Unwrap, Zip,
};
pub use conversion::IteratorExt;
pub use sources::making::{
    convert, convert_fused, empty, from_fn, once, once_err, repeat, repeat_err,
};
pub use sources::{Convert, Empty, FromFn, IntoFallible, Once, OnceErr, Repeat, RepeatErr};
pub use taking::fold_if;
