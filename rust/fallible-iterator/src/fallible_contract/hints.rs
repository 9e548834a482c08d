//! What the adapters make of their sources' hints.

/// The smaller of each bound and n.
///
/// <details><summary>Contract</summary>
///
/// As it is proved, in [these words](crate::words):
///
/// ```text
/// ensures { result ≡ hint_up_to n hint }
/// ```
/// </details>
pub fn up_to(hint: (usize, Option<usize>), n: usize) -> (usize, Option<usize>) {
    let high = match hint.1 {
        Some(bound) => Some(bound.min(n)),
        None => None,
    };
    (hint.0.min(n), high)
}

/// Each bound less n, and not below 0.
///
/// <details><summary>Contract</summary>
///
/// As it is proved, in [these words](crate::words):
///
/// ```text
/// ensures { result ≡ hint_less n hint }
/// ```
/// </details>
pub fn less(hint: (usize, Option<usize>), n: usize) -> (usize, Option<usize>) {
    let high = match hint.1 {
        Some(bound) => Some(bound.saturating_sub(n)),
        None => None,
    };
    (hint.0.saturating_sub(n), high)
}

/// Each bound, of which the items are kept that come after the first `left` ones, at each step.
///
/// <details><summary>Contract</summary>
///
/// As it is proved, in [these words](crate::words):
///
/// ```text
/// ensures { result ≡ hint_kept between to_skip hint }
/// ```
/// </details>
pub fn kept(
    hint: (usize, Option<usize>),
    between: usize,
    to_skip: usize,
) -> (usize, Option<usize>) {
    let high = match hint.1 {
        Some(bound) => Some(kept_of_bound(bound, between, to_skip)),
        None => None,
    };
    (kept_of_bound(hint.0, between, to_skip), high)
}

// How many of n items are kept, where `left` are left out first.
fn kept_of_bound(n: usize, between: usize, to_skip: usize) -> usize {
    if n <= to_skip {
        0
    } else {
        1 + whole_steps(n - 1 - to_skip, between)
    }
}

// How many whole steps fit into n items.
fn whole_steps(n: usize, between: usize) -> usize {
    if n <= between { 0 } else { n / (between + 1) }
}

/// One more on each bound: the lower at most `usize::MAX`, and `None` for an upper one that would be past that.
///
/// <details><summary>Contract</summary>
///
/// As it is proved, in [these words](crate::words):
///
/// ```text
/// ensures { HintWithItem hint result }
/// ```
/// </details>
pub fn one_more(hint: (usize, Option<usize>)) -> (usize, Option<usize>) {
    let high = match hint.1 {
        Some(bound) => bound.checked_add(1),
        None => None,
    };
    (hint.0.saturating_add(1), high)
}

/// The sums of two hints' bounds.
///
/// <details><summary>Contract</summary>
///
/// As it is proved, in [these words](crate::words):
///
/// ```text
/// ensures { result ≡ hint_sum a b }
/// ```
/// </details>
pub fn sum(a: (usize, Option<usize>), b: (usize, Option<usize>)) -> (usize, Option<usize>) {
    let high = match (a.1, b.1) {
        (Some(x), Some(y)) => x.checked_add(y),
        (Some(_), None) => None,
        (None, _) => None,
    };
    (a.0.saturating_add(b.0), high)
}

/// The smaller of two hints' bounds.
///
/// <details><summary>Contract</summary>
///
/// As it is proved, in [these words](crate::words):
///
/// ```text
/// ensures { result ≡ hint_smaller a b }
/// ```
/// </details>
pub fn smaller(a: (usize, Option<usize>), b: (usize, Option<usize>)) -> (usize, Option<usize>) {
    let high = match (a.1, b.1) {
        (Some(x), Some(y)) => Some(x.min(y)),
        (Some(x), None) => Some(x),
        (None, y) => y,
    };
    (a.0.min(b.0), high)
}
