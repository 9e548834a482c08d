//! Adapters that join traces.
mod chain;
mod cycle;
mod flat_map;
mod flatten;
mod zip;

pub use chain::Chain;
pub(crate) use chain::StillDrawn;
pub use cycle::Cycle;
pub use flat_map::FlatMap;
pub use flatten::Flatten;
pub use zip::Zip;
