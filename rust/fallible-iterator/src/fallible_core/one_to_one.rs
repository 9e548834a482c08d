//! Adapters that draw once in each call.
mod cloned;
mod enumerate;
mod inspect;
mod map;
mod map_err;
mod map_while;
mod scan;

pub use cloned::Cloned;
pub use enumerate::Enumerate;
pub use inspect::Inspect;
pub use map::Map;
pub use map_err::MapErr;
pub use map_while::MapWhile;
pub use scan::Scan;
