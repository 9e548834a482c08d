//! What the adapters make of their sources' hints.

/// Each bound, of which the items are kept that come after the first `left` ones, at each step.
pub fn kept(
    hint: (usize, Option<usize>),
    between: usize,
    to_skip: usize,
) -> (usize, Option<usize>) {
    let high = match hint.1 {
        Some(bound) => Some(kept_of_bound(bound, between, to_skip)),
        None => None,
    };
    (kept_of_bound(hint.0, between, to_skip), high)
}

// How many of n items are kept, where `left` are left out first.
fn kept_of_bound(n: usize, between: usize, to_skip: usize) -> usize {
    if n <= to_skip {
        0
    } else {
        1 + whole_steps(n - 1 - to_skip, between)
    }
}

// How many whole steps fit into n items.
fn whole_steps(n: usize, between: usize) -> usize {
    if n <= between { 0 } else { n / (between + 1) }
}

/// The sums of two hints' bounds.
pub fn sum(a: (usize, Option<usize>), b: (usize, Option<usize>)) -> (usize, Option<usize>) {
    let high = match (a.1, b.1) {
        (Some(x), Some(y)) => x.checked_add(y),
        (Some(_), None) => None,
        (None, _) => None,
    };
    (a.0.saturating_add(b.0), high)
}

/// The smaller of two hints' bounds.
pub fn smaller(a: (usize, Option<usize>), b: (usize, Option<usize>)) -> (usize, Option<usize>) {
    let high = match (a.1, b.1) {
        (Some(x), Some(y)) => Some(x.min(y)),
        (Some(x), None) => Some(x),
        (None, y) => y,
    };
    (a.0.min(b.0), high)
}
