//! Comparisons: one loop of rounds over a rule of two items.

use crate::fallible_contract::comparing::{Comparison, Reading, decide};
use crate::fallible_core::joining::Zip;
use crate::fallible_core::traits::FallibleIterator;
use crate::fallible_core::traits::conversion::IntoFallibleIterator;
use core::cmp::Ordering;

/// Draws the left and then the right in each round, until a failure, an `Ok(None)`, or two items that aren't equal by the rule.
///
/// <details><summary>Contract</summary>
///
/// As it is proved, in [these words](crate::words):
///
/// ```text
/// requires left { L.contract.can_next left }
/// requires right { R.contract.can_next right }
/// requires finite { L.contract.is_finite left ⊎ R.contract.is_finite right }
/// ensures { CompareDraws K.rule L.contract.steps R.contract.steps left right result }
/// ```
/// </details>
pub fn compare<L, R, K>(left: L, right: R) -> Result<Option<Ordering>, L::Error>
where
    L: FallibleIterator,
    R: FallibleIterator<Error = L::Error>,
    K: Comparison<L::Item, R::Item>,
{
    let mut both = Zip { left, right };
    loop {
        let x = match both.left.next() {
            Ok(x) => x,
            Err(e) => return Err(e),
        };
        let y = match both.right.next() {
            Ok(y) => y,
            Err(e) => return Err(e),
        };
        match decide::<L::Item, R::Item, K>(x, y) {
            Some(order) => return Ok(order),
            None => {}
        }
    }
}

/// Returns the two, for a loop of rounds of one's own.
///
/// <details><summary>Contract</summary>
///
/// As it is proved, where its signature is another, in [these words](crate::words):
///
/// ```text
/// requires { L.contract.is_finite left ⊎ R.contract.is_finite right }
/// ensures left { result.0 ≡ left }
/// ensures right { result.1 ≡ right }
/// ensures number { L.contract.bound left result.2.value ⊎ R.contract.bound right result.2.value }
/// ```
/// </details>
pub fn number_of_either<L, R>(left: L, right: R) -> (L, R)
where
    L: FallibleIterator,
    R: FallibleIterator<Error = L::Error>,
{
    let both = Zip { left, right };
    let Zip { left, right } = both;
    (left, right)
}

/// Compares the iterator with what the other value becomes, by the rule, and reads the result.
///
/// <details><summary>Contract</summary>
///
/// As it is proved, in [these words](crate::words):
///
/// ```text
/// requires can_next { L.contract.can_next left }
/// requires right { (right : I.IntoFallibleIter) → I.into_gives other right
///     → I.IntoFallibleIter.contract.can_next right }
/// requires finite { OneIsFinite L.contract I.into_gives I.IntoFallibleIter.contract left other }
/// ensures compared { ReadWith K.rule R.reads I.into_gives L.contract.steps
///     I.IntoFallibleIter.contract.steps left other result }
/// ensures value { OverBoth L.contract.steps left I.into_gives other
///     I.IntoFallibleIter.contract.steps
///     (λ a b. result ≡ read_as R.reads (compared K.rule a b)) }
/// ```
/// </details>
pub fn compare_read<L, I, K, R>(left: L, other: I) -> Result<bool, L::Error>
where
    L: FallibleIterator,
    I: IntoFallibleIterator<Error = L::Error>,
    K: Comparison<L::Item, I::Item>,
    R: Reading,
{
    let answer = compare::<L, I::IntoFallibleIter, K>(left, other.into_fallible_iter());
    R::read(answer)
}
