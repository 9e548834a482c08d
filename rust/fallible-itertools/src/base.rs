//! What the adapters and the consumers are made of, over what any `fallible-iterator` shows.

#[cfg(feature = "alloc")]
pub mod batch;
pub mod by_drive;
pub mod drive;
pub mod fallible_contract;
pub mod fallible_core;
#[cfg(feature = "alloc")]
pub mod gathering;
pub mod memory;

#[cfg(feature = "alloc")]
pub use self::batch::{alone, pushed};
pub(crate) use self::by_drive::by_drive;
pub use self::fallible_contract::collecting::{Collect, CollectTurn, Extended};
pub use self::fallible_contract::comparing::{ReadEq, Reading, ordered};
pub use self::fallible_contract::failing::{Fail, failed};
pub use self::fallible_contract::folds::{Beside, CountTurn, FirstTurn, Turn};
pub use self::fallible_contract::hints::{kept, smaller, sum};
pub use self::fallible_contract::passing::{Outcome, Pass, passed};
pub use self::fallible_contract::searching::{
    AnyTurn, FindTest, FindTurn, ForEachTurn, PositionTurn, answer_or, answer_or_none, found,
};
pub use self::fallible_core::failing::{
    drive_back_failing, drive_back_recovering, drive_failing, drive_recovering,
};
pub use self::fallible_core::passing::{drive_back_passing, drive_passing};
pub use self::memory::AllocError;
