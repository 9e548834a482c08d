#![doc = include_str!("../README.md")]
#![no_std]
#![cfg_attr(docsrs, feature(doc_cfg))]
#![forbid(unsafe_code)]
#![warn(missing_docs)]
// An example imports what its lines use.
#![doc(test(attr(deny(unused_imports))))]
// The bodies stay as they are proved.
#![allow(
    clippy::manual_map,
    clippy::mem_replace_option_with_some,
    clippy::multiple_bound_locations
)]
#![allow(clippy::needless_match, clippy::question_mark, clippy::single_match)]
#![allow(clippy::type_complexity, clippy::wrong_self_convention)]

#[cfg(feature = "alloc")]
extern crate alloc;
#[cfg(feature = "std")]
extern crate std;

#[cfg(feature = "std")]
mod all_unique;
mod base;
mod checked_sum;
mod double_ended;
mod equal;
mod errors;
mod fallible_itertools_adapters;
mod fallible_itertools_joins;
mod find;
mod fold_while;
mod is_sorted;
#[cfg(feature = "alloc")]
mod join;
#[cfg(feature = "std")]
mod keyed;
mod minmax;
mod partition;
#[cfg(feature = "alloc")]
mod sorted;
#[cfg(feature = "alloc")]
mod tail;
mod traits;
mod with_index;
#[cfg(doc)]
pub mod words;

#[cfg(feature = "alloc")]
pub use crate::fallible_itertools_adapters::{ChunkBy, Chunks};
pub use crate::fallible_itertools_adapters::{
    Coalesce, Copied, Dedup, DedupBy, DedupByKey, DedupByWithCount, DedupWithCount, ErrInto,
    FuseAtFailure, InspectErr, Intersperse, IntersperseWith, OrElse, PeekingNext, PeekingTakeWhile,
    Position, Positions, StopAfter, TakeWhileInclusive, TupleWindows, Tuples, WithPosition,
};
#[cfg(feature = "std")]
pub use crate::fallible_itertools_adapters::{Duplicates, Unique, UniqueBy};
pub use crate::fallible_itertools_joins::{
    EitherOrBoth, Interleave, Merge, MergeBy, MergeJoinBy, PadUsing, ZipEq, ZipLongest,
};
#[cfg(feature = "alloc")]
pub use crate::fallible_itertools_joins::{
    KMerge, KMergeBy,
    kmerge_by::{kmerge, kmerge_by},
};
pub use checked_sum::CheckedTotal;
pub use double_ended::DoubleEndedFallibleItertools;
pub use find::NotOne;
pub use fold_while::FoldWhile;
pub use minmax::MinMaxResult;
pub use partition::Either;
pub use traits::FallibleItertools;
pub use with_index::MapErrWithIndex;
