//! What comes along of `fallible_core`.

pub mod failing;
pub mod passing;
