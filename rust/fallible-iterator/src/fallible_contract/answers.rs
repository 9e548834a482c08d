//! What draws returned, as values that a test or a caller can look at.

/// What one draw returned.
#[derive(Debug, PartialEq, Eq)]
pub enum Answer<T, E> {
    /// an item
    Item(T),
    /// a failure
    Failure(E),
    /// `Ok(None)`
    End,
}

/// An end to draw from.
#[derive(Debug, PartialEq, Eq)]
pub enum Side {
    /// the end that `next` draws from
    Front,
    /// the end that `next_back` draws from
    Back,
}
