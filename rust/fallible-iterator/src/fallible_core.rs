//! The trait of fallible iterators and its adapters, where every call is proved to meet its contract.

pub mod bridges;
pub mod comparing;
pub mod cutting;
pub mod ends;
pub mod failing;
pub mod filtering;
pub mod headline;
pub mod joining;
pub mod one_to_one;
pub mod passing;
pub mod peeking;
mod picking;
pub mod traits;

pub use bridges::{Iterator, Unwrap};
pub use cutting::{Fuse, Skip, StepBy, Take, TakeWhile};
pub use ends::Rev;
pub use filtering::{Filter, FilterMap, SkipWhile};
pub use joining::{Chain, Cycle, FlatMap, Flatten, Zip};
pub use one_to_one::{Cloned, Enumerate, Inspect, Map, MapErr, MapWhile, Scan};
pub use peeking::Peekable;
pub use traits::FallibleIterator;
pub use traits::conversion::IntoFallibleIterator;
pub use traits::double_ended::DoubleEndedFallibleIterator;
