//! The best of the items: one fold that keeps the better of two.

use crate::fallible_contract::picking::{BestKeyTurn, BestTurn};
use crate::fallible_core::traits::FallibleIterator;
use core::cmp::Ordering;

/// The best item by a closure that compares the best so far and the next item.
///
/// <details><summary>Contract</summary>
///
/// As it is proved, in [these words](crate::words):
///
/// ```text
/// requires can_next { I.contract.can_next it }
/// requires finite { I.contract.is_finite it }
/// requires callable { CallableInFold I.contract.steps (PickCall keeps (call_at_two F.FnMut))
///     (takes_in_pick (takes_at_two F.FnMut)) it f None }
/// ensures { PickedByFold keeps (call_at_two F.FnMut) I.contract.steps it f result }
/// ```
/// </details>
pub fn best_by<I, F>(it: I, keeps: Ordering, f: F) -> Result<Option<I::Item>, I::Error>
where
    I: FallibleIterator,
    F: FnMut(&I::Item, &I::Item) -> Result<Ordering, I::Error>,
{
    let mut it = it;
    let mut state = (None, f);
    let answer = it.drive(&mut state, &BestTurn { keeps });
    let (best, _) = state;
    match answer {
        Ok(None) => Ok(best),
        Ok(Some(e)) => Err(e),
        Err(e) => Err(e),
    }
}

/// The item with the best key, and its key.
///
/// <details><summary>Contract</summary>
///
/// As it is proved, in [these words](crate::words):
///
/// ```text
/// requires can_next { I.contract.can_next it }
/// requires finite { I.contract.is_finite it }
/// requires callable { CallableInFold I.contract.steps (KeyCall keeps K.cmp (call_by_reference F.FnMut))
///     (λ g b x. takes_by_reference F.FnMut g x) it f None }
/// ensures { (left : I)
///     × FoldDrains I.contract.steps (KeyCall keeps K.cmp (call_by_reference F.FnMut)) (λ e d. d ≡ e)
///     it None f result left }
/// ```
/// </details>
pub fn best_by_key<I, K, F>(it: I, keeps: Ordering, f: F) -> Result<Option<(K, I::Item)>, I::Error>
where
    I: FallibleIterator,
    K: Ord,
    F: FnMut(&I::Item) -> Result<K, I::Error>,
{
    let mut it = it;
    let mut state = (None, f);
    let answer = it.drive(&mut state, &BestKeyTurn { keeps });
    let (best, _) = state;
    match answer {
        Ok(None) => Ok(best),
        Ok(Some(e)) => Err(e),
        Err(e) => Err(e),
    }
}
