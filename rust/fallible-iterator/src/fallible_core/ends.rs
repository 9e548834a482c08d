//! The two ends of a fallible iterator, swapped.
mod rev;

pub use rev::Rev;
