//! What nearly each caller imports: the traits, and `convert`.
pub use crate::conversion::IteratorExt;
pub use crate::fallible_core::{
    DoubleEndedFallibleIterator, FallibleIterator, IntoFallibleIterator,
};
pub use crate::sources::making::convert;
