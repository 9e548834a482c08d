//! Adapters that cut a trace off.
mod by_number;
mod fuse;
mod skip;
mod step_by;
mod take;
mod take_while;

pub use fuse::Fuse;
pub use skip::Skip;
pub use step_by::StepBy;
pub use take::Take;
pub use take_while::TakeWhile;
