//! Comparisons: the rules of two items, and what is read off a comparison.

use core::cmp::Ordering;

/// How two items compare; `None` if they can't be compared.
pub trait Comparison<A, B> {
    /// Compares the items.
    ///
    /// <details><summary>Contract</summary>
    ///
    /// As it is proved, in [these words](crate::words):
    ///
    /// ```text
    /// ensures { result ≡ rule left.now right.now }
    /// ```
    /// </details>
    fn compare(left: &A, right: &B) -> Option<Ordering>;
}

/// By the order of the items.
pub struct ByCmp;

impl<A: Ord> Comparison<A, A> for ByCmp {
    fn compare(left: &A, right: &A) -> Option<Ordering> {
        Some(left.cmp(right))
    }
}

/// By a partial order of the items.
pub struct ByPartialCmp;

impl<A: PartialOrd<B>, B> Comparison<A, B> for ByPartialCmp {
    fn compare(left: &A, right: &B) -> Option<Ordering> {
        left.partial_cmp(right)
    }
}

/// By the equality of the items: unlike ones can't be compared.
pub struct ByEq;

impl<A: PartialEq<B>, B> Comparison<A, B> for ByEq {
    fn compare(left: &A, right: &B) -> Option<Ordering> {
        if left.eq(right) {
            Some(Ordering::Equal)
        } else {
            None
        }
    }
}

/// What one round decides, if neither side failed: `None` for two items that are equal by the rule, so that the comparison goes on.
///
/// <details><summary>Contract</summary>
///
/// As it is proved, in [these words](crate::words):
///
/// ```text
/// ensures { result ≡ decided_round K.rule left right }
/// ```
/// </details>
pub fn decide<A, B, K: Comparison<A, B>>(
    left: Option<A>,
    right: Option<B>,
) -> Option<Option<Ordering>> {
    match (left, right) {
        (None, None) => Some(Some(Ordering::Equal)),
        (None, Some(_)) => Some(Some(Ordering::Less)),
        (Some(_), None) => Some(Some(Ordering::Greater)),
        (Some(x), Some(y)) => match K::compare(&x, &y) {
            Some(Ordering::Equal) => None,
            order => Some(order),
        },
    }
}

/// What is read off a comparison's result.
pub trait Reading {
    /// Reads the result, unless it is a failure.
    ///
    /// <details><summary>Contract</summary>
    ///
    /// As it is proved, in [these words](crate::words):
    ///
    /// ```text
    /// ensures { result ≡ read_as reads answer }
    /// ```
    /// </details>
    fn read<E>(answer: Result<Option<Ordering>, E>) -> Result<bool, E>;
}

/// Reads `eq`: whether the two are equal.
pub struct ReadEq;

impl Reading for ReadEq {
    fn read<E>(answer: Result<Option<Ordering>, E>) -> Result<bool, E> {
        Ok(matches!(answer?, Some(Ordering::Equal)))
    }
}

/// Reads `ne`: whether they are not.
pub struct ReadNe;

impl Reading for ReadNe {
    fn read<E>(answer: Result<Option<Ordering>, E>) -> Result<bool, E> {
        Ok(!matches!(answer?, Some(Ordering::Equal)))
    }
}

/// Reads `lt`: whether the left is less.
pub struct ReadLt;

impl Reading for ReadLt {
    fn read<E>(answer: Result<Option<Ordering>, E>) -> Result<bool, E> {
        Ok(matches!(answer?, Some(Ordering::Less)))
    }
}

/// Reads `le`: whether the left is less or equal.
pub struct ReadLe;

impl Reading for ReadLe {
    fn read<E>(answer: Result<Option<Ordering>, E>) -> Result<bool, E> {
        Ok(matches!(answer?, Some(Ordering::Less | Ordering::Equal)))
    }
}

/// Reads `gt`: whether the left is greater.
pub struct ReadGt;

impl Reading for ReadGt {
    fn read<E>(answer: Result<Option<Ordering>, E>) -> Result<bool, E> {
        Ok(matches!(answer?, Some(Ordering::Greater)))
    }
}

/// Reads `ge`: whether the left is greater or equal.
pub struct ReadGe;

impl Reading for ReadGe {
    fn read<E>(answer: Result<Option<Ordering>, E>) -> Result<bool, E> {
        Ok(matches!(answer?, Some(Ordering::Greater | Ordering::Equal)))
    }
}

/// The order, if a comparison found one.
///
/// <details><summary>Contract</summary>
///
/// As it is proved, in [these words](crate::words):
///
/// ```text
/// requires { ¬ (answer ≡ Ok None) }
/// ensures { read_as (λ o. Some o) result ≡ answer }
/// ```
/// </details>
pub fn ordered<E>(answer: Result<Option<Ordering>, E>) -> Result<Ordering, E> {
    match answer? {
        Some(order) => Ok(order),
        None => Ok(Ordering::Equal),
    }
}
