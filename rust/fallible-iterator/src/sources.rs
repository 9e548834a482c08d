//! Sources: fallible iterators that draw from no other one.
mod convert;
mod empty;
mod from_fn;
mod into_fallible;
pub mod making;
mod once;
mod once_err;
mod repeat;
mod repeat_err;
mod std_fold;

pub use convert::Convert;
pub use empty::Empty;
pub use from_fn::FromFn;
pub use into_fallible::IntoFallible;
pub use once::Once;
pub use once_err::OnceErr;
pub use repeat::Repeat;
pub use repeat_err::RepeatErr;
