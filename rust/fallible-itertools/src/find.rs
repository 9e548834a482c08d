//! Searches: the first item that passes or else the last, the position beside it, those whose closure fails with an error of its own, and why there isn't exactly one item.

use crate::base::Turn;
use core::ops::ControlFlow;

/// The turn of `find_or_last`, whose state is the last item, if one came, and the predicate: it stops at the first item on which the predicate returns true or fails.
pub struct FindLastTurn;

impl<A, E, F: FnMut(&A) -> Result<bool, E>> Turn<(Option<A>, F), A, Result<Option<A>, E>>
    for FindLastTurn
{
    /// Calls the predicate once. The item is the last one then.
    #[inline(always)]
    fn turn(&self, state: &mut (Option<A>, F), item: A) -> ControlFlow<Result<Option<A>, E>, ()> {
        match (state.1)(&item) {
            Ok(true) => ControlFlow::Break(Ok(Some(item))),
            Ok(false) => {
                state.0 = Some(item);
                ControlFlow::Continue(())
            }
            Err(e) => ControlFlow::Break(Err(e)),
        }
    }
}

// The item is kept if none was.
#[inline(always)]
fn keep_first<A>(kept: &mut Option<A>, item: A) {
    if kept.is_none() {
        *kept = Some(item);
    }
}

/// The turn of `find_or_first`. It keeps the first item instead.
pub struct FindFirstTurn;

impl<A, E, F: FnMut(&A) -> Result<bool, E>> Turn<(Option<A>, F), A, Result<Option<A>, E>>
    for FindFirstTurn
{
    /// Calls the predicate once. The item is kept if it is the first.
    #[inline(always)]
    fn turn(&self, state: &mut (Option<A>, F), item: A) -> ControlFlow<Result<Option<A>, E>, ()> {
        match (state.1)(&item) {
            Ok(true) => ControlFlow::Break(Ok(Some(item))),
            Ok(false) => {
                keep_first(&mut state.0, item);
                ControlFlow::Continue(())
            }
            Err(e) => ControlFlow::Break(Err(e)),
        }
    }
}

/// The turn of `find_position`, whose state is the number of items before and the predicate: it stops at the first item on which that returns true, or fails.
pub struct FindPositionTurn;

impl<A, E, F: FnMut(&A) -> Result<bool, E>> Turn<(usize, F), A, Result<Option<(usize, A)>, E>>
    for FindPositionTurn
{
    /// Calls the predicate once, and adds one for the next item.
    #[inline(always)]
    fn turn(
        &self,
        state: &mut (usize, F),
        item: A,
    ) -> ControlFlow<Result<Option<(usize, A)>, E>, ()> {
        match (state.1)(&item) {
            Ok(true) => ControlFlow::Break(Ok(Some((state.0, item)))),
            Ok(false) => {
                state.0 += 1;
                ControlFlow::Continue(())
            }
            Err(e) => ControlFlow::Break(Err(e)),
        }
    }
}

/// What a fold returned, with the source's failure converted.
///
/// <details><summary>Contract</summary>
///
/// As it is proved, in [these words](crate::words):
///
/// ```text
/// ensures { ConvertsTo D.from_gives answer result }
/// ```
/// </details>
pub fn converted<R, E, D: From<E>>(answer: Result<Option<R>, E>) -> Result<Option<R>, D> {
    match answer {
        Ok(answer) => Ok(answer),
        Err(e) => Err(D::from(e)),
    }
}

/// What `exactly_one` found instead of one item.
#[derive(Clone, Copy, Debug, PartialEq, Eq, Hash)]
pub enum NotOne<T> {
    /// no item came
    NoItem,
    /// more than one came: the first two
    More(T, T),
}

impl<T> NotOne<T> {
    /// Returns the first two items, if more than one came.
    ///
    /// <details><summary>Contract</summary>
    ///
    /// As it is proved, in [these words](crate::words):
    ///
    /// ```text
    /// ensures { result ≡ first_two self }
    /// ```
    /// </details>
    pub fn into_items(self) -> Option<(T, T)> {
        match self {
            NotOne::NoItem => None,
            NotOne::More(first, second) => Some((first, second)),
        }
    }

    /// Returns whether more than one item came.
    ///
    /// <details><summary>Contract</summary>
    ///
    /// As it is proved, in [these words](crate::words):
    ///
    /// ```text
    /// ensures { result ≡ is_some (first_two self.now) }
    /// ```
    /// </details>
    pub fn is_more(&self) -> bool {
        matches!(self, NotOne::More(_, _))
    }
}
