// The adapters that pair the items of two sources up to the end of the longer one, or fail where one has more, and the one that pads a source.

use crate::base::Turn;
use crate::base::smaller;
use crate::fallible_itertools_joins::sides::{DrawsBoth, JoinSide, drive_both};
use fallible_iterator::{FallibleIterator, Fuse};

/// An item of each of two sources, or of one alone.
#[derive(Clone, Copy, Debug, PartialEq, Eq, Hash)]
pub enum EitherOrBoth<A, B> {
    /// an item of each
    Both(A, B),
    /// an item of the left alone
    Left(A),
    /// an item of the right alone
    Right(B),
}

impl<A, B> EitherOrBoth<A, B> {
    /// Returns whether there is an item of the left.
    ///
    /// <details><summary>Contract</summary>
    ///
    /// As it is proved, in [these words](crate::words):
    ///
    /// ```text
    /// ensures { result ≡ is_some (left_of self.now) }
    /// ```
    /// </details>
    pub fn has_left(&self) -> bool {
        matches!(self, EitherOrBoth::Both(_, _) | EitherOrBoth::Left(_))
    }

    /// Returns whether there is an item of the right.
    ///
    /// <details><summary>Contract</summary>
    ///
    /// As it is proved, in [these words](crate::words):
    ///
    /// ```text
    /// ensures { result ≡ is_some (right_of self.now) }
    /// ```
    /// </details>
    pub fn has_right(&self) -> bool {
        matches!(self, EitherOrBoth::Both(_, _) | EitherOrBoth::Right(_))
    }

    /// Returns whether there is an item of the left alone.
    ///
    /// <details><summary>Contract</summary>
    ///
    /// As it is proved, in [these words](crate::words):
    ///
    /// ```text
    /// ensures { result ≡ is_some (only_left self.now) }
    /// ```
    /// </details>
    pub fn is_left(&self) -> bool {
        matches!(self, EitherOrBoth::Left(_))
    }

    /// Returns whether there is an item of the right alone.
    ///
    /// <details><summary>Contract</summary>
    ///
    /// As it is proved, in [these words](crate::words):
    ///
    /// ```text
    /// ensures { result ≡ is_some (only_right self.now) }
    /// ```
    /// </details>
    pub fn is_right(&self) -> bool {
        matches!(self, EitherOrBoth::Right(_))
    }

    /// Returns whether there is an item of each.
    ///
    /// <details><summary>Contract</summary>
    ///
    /// As it is proved, in [these words](crate::words):
    ///
    /// ```text
    /// ensures { result ≡ is_some (both_of self.now) }
    /// ```
    /// </details>
    pub fn is_both(&self) -> bool {
        matches!(self, EitherOrBoth::Both(_, _))
    }

    /// Returns the item of the left, if there is one.
    ///
    /// <details><summary>Contract</summary>
    ///
    /// As it is proved, in [these words](crate::words):
    ///
    /// ```text
    /// ensures { result ≡ left_of self }
    /// ```
    /// </details>
    pub fn left(self) -> Option<A> {
        match self {
            EitherOrBoth::Both(left, _right) => Some(left),
            EitherOrBoth::Left(left) => Some(left),
            EitherOrBoth::Right(_right) => None,
        }
    }

    /// Returns the item of the right, if there is one.
    ///
    /// <details><summary>Contract</summary>
    ///
    /// As it is proved, in [these words](crate::words):
    ///
    /// ```text
    /// ensures { result ≡ right_of self }
    /// ```
    /// </details>
    pub fn right(self) -> Option<B> {
        match self {
            EitherOrBoth::Both(_left, right) => Some(right),
            EitherOrBoth::Left(_left) => None,
            EitherOrBoth::Right(right) => Some(right),
        }
    }

    /// Returns both items, if there is one of each.
    ///
    /// <details><summary>Contract</summary>
    ///
    /// As it is proved, in [these words](crate::words):
    ///
    /// ```text
    /// ensures { result ≡ both_of self }
    /// ```
    /// </details>
    pub fn both(self) -> Option<(A, B)> {
        match self {
            EitherOrBoth::Both(left, right) => Some((left, right)),
            EitherOrBoth::Left(_left) => None,
            EitherOrBoth::Right(_right) => None,
        }
    }

    /// Returns the item of the left, if there is none of the right.
    ///
    /// <details><summary>Contract</summary>
    ///
    /// As it is proved, in [these words](crate::words):
    ///
    /// ```text
    /// ensures { result ≡ only_left self }
    /// ```
    /// </details>
    pub fn just_left(self) -> Option<A> {
        match self {
            EitherOrBoth::Left(left) => Some(left),
            EitherOrBoth::Both(_left, _right) => None,
            EitherOrBoth::Right(_right) => None,
        }
    }

    /// Returns the item of the right, if there is none of the left.
    ///
    /// <details><summary>Contract</summary>
    ///
    /// As it is proved, in [these words](crate::words):
    ///
    /// ```text
    /// ensures { result ≡ only_right self }
    /// ```
    /// </details>
    pub fn just_right(self) -> Option<B> {
        match self {
            EitherOrBoth::Right(right) => Some(right),
            EitherOrBoth::Both(_left, _right) => None,
            EitherOrBoth::Left(_left) => None,
        }
    }

    /// Returns the items with left and right exchanged.
    ///
    /// <details><summary>Contract</summary>
    ///
    /// As it is proved, in [these words](crate::words):
    ///
    /// ```text
    /// ensures { (left_of result ≡ right_of self) × (right_of result ≡ left_of self) }
    /// ```
    /// </details>
    pub fn flip(self) -> EitherOrBoth<B, A> {
        match self {
            EitherOrBoth::Both(left, right) => EitherOrBoth::Both(right, left),
            EitherOrBoth::Left(left) => EitherOrBoth::Right(left),
            EitherOrBoth::Right(right) => EitherOrBoth::Left(right),
        }
    }

    /// Returns an item of each. `l` stands for a missing item of the left, and `r` for one of the right.
    ///
    /// <details><summary>Contract</summary>
    ///
    /// As it is proved, in [these words](crate::words):
    ///
    /// ```text
    /// ensures { result ≡ (unwrap_or (left_of self) l, unwrap_or (right_of self) r) }
    /// ```
    /// </details>
    pub fn or(self, l: A, r: B) -> (A, B) {
        match self {
            EitherOrBoth::Both(left, right) => (left, right),
            EitherOrBoth::Left(left) => (left, r),
            EitherOrBoth::Right(right) => (l, right),
        }
    }
}

/// The items of two sources, each fused, by their positions, up to `Ok(None)` of both. If the left fails, the right isn't drawn. If the right fails, the left's item is buffered for the next call.
#[derive(Clone, Debug)]
#[must_use = "an iterator draws nothing until it is asked"]
pub struct ZipLongest<T: FallibleIterator, U> {
    pub(crate) left: JoinSide<Fuse<T>, T::Item>,
    pub(crate) right: Fuse<U>,
}

impl<T: FallibleIterator, U: FallibleIterator<Error = T::Error>> ZipLongest<T, U> {
    /// Creates it. It draws nothing.
    #[inline(always)]
    pub(crate) fn new(left: Fuse<T>, right: Fuse<U>) -> ZipLongest<T, U> {
        ZipLongest {
            left: JoinSide::new(left),
            right,
        }
    }
}

// The fold by turns, by which `try_fold` goes.
impl<T: FallibleIterator, U: FallibleIterator<Error = T::Error>> ZipLongest<T, U> {
    #[inline(always)]
    fn by_turns<C, R, K: Turn<C, EitherOrBoth<T::Item, U::Item>, R>>(
        &mut self,
        state: &mut C,
        turn: &K,
    ) -> Result<Option<R>, T::Error> {
        drive_both(self, state, turn)
    }
}

impl<T: FallibleIterator, U: FallibleIterator<Error = T::Error>> FallibleIterator
    for ZipLongest<T, U>
{
    type Item = EitherOrBoth<T::Item, U::Item>;

    type Error = T::Error;

    /// Takes the left's buffered item, or draws the left once. Then, unless that failed, it draws the right once. A side that returned `Ok(None)` isn't drawn again. Each fold draws so too.
    fn next(&mut self) -> Result<Option<EitherOrBoth<T::Item, U::Item>>, T::Error> {
        self.next_of_both().0
    }

    fn size_hint(&self) -> (usize, Option<usize>) {
        greater(self.left.hint(), self.right.size_hint())
    }

    crate::base::by_drive!(drive);
}

impl<T: FallibleIterator, U: FallibleIterator<Error = T::Error>> DrawsBoth for ZipLongest<T, U> {
    type Item = EitherOrBoth<T::Item, U::Item>;

    type Error = T::Error;

    #[inline(always)]
    fn next_of_both(
        &mut self,
    ) -> (
        Result<Option<EitherOrBoth<T::Item, U::Item>>, T::Error>,
        bool,
    ) {
        match self.left.give() {
            Ok(Some(x)) => match self.right.next() {
                Ok(Some(y)) => (Ok(Some(EitherOrBoth::Both(x, y))), false),
                Ok(None) => (Ok(Some(EitherOrBoth::Left(x))), true),
                Err(e) => {
                    self.left.held = Some(x);
                    (Err(e), false)
                }
            },
            Ok(None) => match self.right.next() {
                Ok(Some(y)) => (Ok(Some(EitherOrBoth::Right(y))), true),
                Ok(None) => (Ok(None), true),
                Err(e) => (Err(e), true),
            },
            Err(e) => (Err(e), false),
        }
    }
}

// The greater of two hints' bounds.
pub(crate) fn greater(
    a: (usize, Option<usize>),
    b: (usize, Option<usize>),
) -> (usize, Option<usize>) {
    let high = match (a.1, b.1) {
        (Some(x), Some(y)) => Some(x.max(y)),
        (Some(_), None) => None,
        (None, _) => None,
    };
    (a.0.max(b.0), high)
}

/// The items of two sources, each fused, as pairs. Where one side returned `Ok(None)` and the other has an item, that item is lost, and what a closure returns is the failure. If the left fails, the right isn't drawn. If the right fails, the left's item is buffered for the next call.
#[derive(Clone, Debug)]
#[must_use = "an iterator draws nothing until it is asked"]
pub struct ZipEq<T: FallibleIterator, U, F> {
    pub(crate) left: JoinSide<Fuse<T>, T::Item>,
    pub(crate) right: Fuse<U>,
    pub(crate) f: F,
}

impl<T: FallibleIterator, U: FallibleIterator<Error = T::Error>, F> ZipEq<T, U, F> {
    /// Creates it. It draws nothing.
    #[inline(always)]
    pub(crate) fn new(left: Fuse<T>, right: Fuse<U>, f: F) -> ZipEq<T, U, F> {
        ZipEq {
            left: JoinSide::new(left),
            right,
            f,
        }
    }
}

impl<T: FallibleIterator, U: FallibleIterator<Error = T::Error>, F: FnMut() -> T::Error>
    FallibleIterator for ZipEq<T, U, F>
{
    type Item = (T::Item, U::Item);

    type Error = T::Error;

    /// Takes the left's buffered item, or draws the left once. Then, unless that failed, it draws the right once. A side that returned `Ok(None)` isn't drawn again. It calls the closure once if one side alone has an item. Each fold draws so too.
    fn next(&mut self) -> Result<Option<(T::Item, U::Item)>, T::Error> {
        match self.left.give()? {
            Some(x) => match self.right.next() {
                Ok(Some(y)) => Ok(Some((x, y))),
                Ok(None) => Err((self.f)()),
                Err(e) => {
                    self.left.held = Some(x);
                    Err(e)
                }
            },
            None => match self.right.next() {
                Ok(Some(_)) => Err((self.f)()),
                Ok(None) => Ok(None),
                Err(e) => Err(e),
            },
        }
    }

    fn size_hint(&self) -> (usize, Option<usize>) {
        smaller(self.left.hint(), self.right.size_hint())
    }
}

/// The items of the source, and then what the closure returns for each index below n that no item has. The source is fused. If the closure fails, its failure stands in that item's place.
#[derive(Clone, Debug)]
#[must_use = "an iterator draws nothing until it is asked"]
pub struct PadUsing<I, F> {
    pub(crate) it: Fuse<I>,
    // the index of the next item, up to n
    pub(crate) next: usize,
    // n
    pub(crate) end: usize,
    pub(crate) f: F,
}

impl<I, F> PadUsing<I, F> {
    /// Creates it. It draws nothing.
    #[inline(always)]
    pub(crate) fn new(it: Fuse<I>, n: usize, f: F) -> PadUsing<I, F> {
        PadUsing {
            it,
            next: 0,
            end: n,
            f,
        }
    }
}

// The fold by turns, by which `try_fold` goes.
impl<I: FallibleIterator, F: FnMut(usize) -> Result<I::Item, I::Error>> PadUsing<I, F> {
    #[inline(always)]
    fn by_turns<C, R, K: Turn<C, I::Item, R>>(
        &mut self,
        state: &mut C,
        turn: &K,
    ) -> Result<Option<R>, I::Error> {
        drive_both(self, state, turn)
    }
}

impl<I: FallibleIterator, F: FnMut(usize) -> Result<I::Item, I::Error>> FallibleIterator
    for PadUsing<I, F>
{
    type Item = I::Item;

    type Error = I::Error;

    /// Draws once until the source returned `Ok(None)`. From then on it draws nothing, and calls the closure once until n items were yielded. Each fold draws so too.
    fn next(&mut self) -> Result<Option<I::Item>, I::Error> {
        self.next_of_both().0
    }

    fn size_hint(&self) -> (usize, Option<usize>) {
        let missing = self.end.saturating_sub(self.next);
        greater(self.it.size_hint(), (missing, Some(missing)))
    }

    crate::base::by_drive!(drive);
}

impl<I: FallibleIterator, F: FnMut(usize) -> Result<I::Item, I::Error>> DrawsBoth
    for PadUsing<I, F>
{
    type Item = I::Item;

    type Error = I::Error;

    #[inline(always)]
    fn next_of_both(&mut self) -> (Result<Option<I::Item>, I::Error>, bool) {
        match self.it.next() {
            Ok(Some(x)) => {
                let _ = next_index(&mut self.next, self.end);
                (Ok(Some(x)), false)
            }
            Ok(None) => match next_index(&mut self.next, self.end) {
                Some(i) => match (self.f)(i) {
                    Ok(x) => (Ok(Some(x)), true),
                    Err(e) => (Err(e), true),
                },
                None => (Ok(None), true),
            },
            Err(e) => (Err(e), false),
        }
    }
}

// The next index, if one is left.
#[inline(always)]
fn next_index(next: &mut usize, end: usize) -> Option<usize> {
    if *next < end {
        let index = *next;
        *next = index + 1;
        Some(index)
    } else {
        None
    }
}
