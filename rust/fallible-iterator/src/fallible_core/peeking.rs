//! The adapter that looks one item ahead.
mod peek;
mod peekable;

pub use peekable::Peekable;
