//! From fallible iterators to std's.
mod iterator;
mod unwrap;

pub use iterator::Iterator;
pub use unwrap::Unwrap;
