//! What comes along of `fallible_contract`.

pub mod collecting;
pub mod comparing;
pub mod failing;
pub mod folds;
pub mod hints;
pub mod passing;
pub mod searching;
