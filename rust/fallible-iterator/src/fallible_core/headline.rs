//! The headline: one law of every source and every nest of adapters.

use crate::fallible_core::traits::FallibleIterator;
use crate::fallible_core::traits::double_ended::DoubleEndedFallibleIterator;

/// For every source and every nest of adapters: calls of `next` can return a list of answers exactly if the adapters' definitions make that list of what the sources and the closures return, with exactly these draws. A type's definition is the `traces` of its contract, which speaks of those of the types that it is made of. The `traces` of a type that states no definition, as your own need not, are its runs.
///
/// <details><summary>Contract</summary>
///
/// As it is proved, in [these words](crate::words):
///
/// ```text
/// ensures { (s : I) (trace : List (Answered I.Item I.Error)) (t : I)
///     → Run I.contract.steps s trace t ↔ I.contract.traces s trace t }
/// ```
/// </details>
pub fn law_headline<I: FallibleIterator>() {}

/// The same of calls of `next_back`.
///
/// <details><summary>Contract</summary>
///
/// As it is proved, in [these words](crate::words):
///
/// ```text
/// ensures { (s : I) (trace : List (Answered I.Item I.Error)) (t : I)
///     → Run I.ends.steps s trace t ↔ I.ends.traces s trace t }
/// ```
/// </details>
pub fn law_headline_back<I: DoubleEndedFallibleIterator>() {}

/// For every source and every nest of adapters: where its type says so, the upper bound of each hint is at least the number of items of each run, and the lower bound at most that of each run that ends. Where that is, the `sound` of its contract says, of where it is so of the types that it is made of. That of a type that states none, as your own need not, says just that they are.
///
/// <details><summary>Contract</summary>
///
/// As it is proved, in [these words](crate::words):
///
/// ```text
/// ensures above { (s : I) (h : ℕ × Option ℕ) → I.contract.hints s h → I.contract.sound.above s h.1
///     → BoundsAbove I.contract.steps s h.1 }
/// ensures below { (s : I) (h : ℕ × Option ℕ) → I.contract.hints s h → I.contract.sound.below s h.0
///     → BoundsBelow I.contract.steps s h.0 }
/// ```
/// </details>
pub fn law_hints<I: FallibleIterator>() {}

/// The same of calls of `next_back`.
///
/// <details><summary>Contract</summary>
///
/// As it is proved, in [these words](crate::words):
///
/// ```text
/// ensures above { (s : I) (h : ℕ × Option ℕ) → I.contract.hints s h → I.ends.sound.above s h.1
///     → BoundsAbove I.ends.steps s h.1 }
/// ensures below { (s : I) (h : ℕ × Option ℕ) → I.contract.hints s h → I.ends.sound.below s h.0
///     → BoundsBelow I.ends.steps s h.0 }
/// ```
/// </details>
pub fn law_hints_back<I: DoubleEndedFallibleIterator>() {}
