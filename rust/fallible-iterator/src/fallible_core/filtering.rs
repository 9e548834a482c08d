//! Adapters that leave items out.
mod filter;
mod filter_map;
mod skip_while;

pub use filter::Filter;
pub use filter_map::FilterMap;
pub use skip_while::SkipWhile;
