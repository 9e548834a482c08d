//! The extension trait of every double-ended fallible iterator.

use crate::base::drive::Drive;
use crate::base::drive::DriveBack;
use crate::base::{AnyTurn, CountTurn, FindTest, FindTurn, answer_or, found};
use fallible_iterator::{DoubleEndedFallibleIterator, FallibleIterator};

// Skips n items from the back, and draws once more.
fn nth_from_back<I>(it: &mut I, n: usize) -> Result<Option<I::Item>, I::Error>
where
    I: DoubleEndedFallibleIterator,
{
    let mut left = n;
    while 0 < left {
        match it.next_back() {
            Ok(Some(_)) => {}
            Ok(None) => return Ok(None),
            Err(e) => return Err(e),
        }
        left -= 1;
    }
    it.next_back()
}

// Counts what is left, if an item was found.
fn number_left_if<I>(it: &mut I, found: Result<bool, I::Error>) -> Result<Option<usize>, I::Error>
where
    I: FallibleIterator,
{
    if !found? {
        return Ok(None);
    }
    let mut number = 0;
    match it.by_turns(&mut number, &CountTurn) {
        Ok(None) => Ok(Some(number)),
        Ok(Some(never)) => match never {},
        Err(e) => Err(e),
    }
}

/// More calls on every double-ended fallible iterator.
pub trait DoubleEndedFallibleItertools: DoubleEndedFallibleIterator + Sized {
    /// Returns the item with n items after it; `Ok(None)` if the iterator ends first.
    ///
    /// It draws at most n + 1 times from the back: up to that item, or a failure or `Ok(None)` before it. It fails with that failure. Nothing is drawn after that, and the iterator may be used again, from either end.
    ///
    /// ```
    /// # use fallible_iterator::{DoubleEndedFallibleIterator, convert};
    /// # use fallible_itertools::DoubleEndedFallibleItertools;
    /// let mut it = convert([Ok::<u32, u8>(1), Ok(2), Ok(3)].into_iter());
    /// assert_eq!(it.nth_back(1), Ok(Some(2)));
    /// assert_eq!(it.next_back(), Ok(Some(1)));
    /// ```
    ///
    /// <details><summary>Contract</summary>
    ///
    /// As it is proved, in [these words](crate::words):
    ///
    /// ```text
    /// requires { Self.ends.can_next self.old }
    /// ensures nth { NthDrains Self.ends.steps self.old n result self.new }
    /// ensures value { OverList Self.ends.steps self.old (λ l. result ≡ nth_of n l) }
    /// ensures rest { (l : List (Result Self.Item Self.Error))
    ///     → ListsBothEnds Self.contract.steps Self.ends.steps self.old l
    ///     → (result ≡ nth_of n (reverse l))
    ///     × ListsBothEnds Self.contract.steps Self.ends.steps self.new
    ///     (reverse (rest_nth n (reverse l))) }
    /// ensures stays { Stays (from_back Self.contract Self.ends) self.old self.new }
    /// ```
    /// </details>
    fn nth_back(&mut self, n: usize) -> Result<Option<Self::Item>, Self::Error> {
        nth_from_back(self, n)
    }

    /// Returns the last item on which the predicate returns true; `Ok(None)` if there is none.
    ///
    /// It draws from the back up to the first item on which the predicate returns true or fails, the first failure or `Ok(None)`. It calls the predicate on each item drawn, the last one first. It fails with the first failure, of this iterator or of the predicate. Nothing is drawn after that, and the iterator may be used again, from either end.
    ///
    /// Precondition, which is not checked: the iterator is finite.
    ///
    /// ```
    /// # use fallible_iterator::{DoubleEndedFallibleIterator, convert};
    /// # use fallible_itertools::DoubleEndedFallibleItertools;
    /// let mut it = convert([Ok::<u32, u8>(150), Ok(700), Ok(7)].into_iter());
    /// assert_eq!(it.rfind(|reading| Ok(*reading > 100)), Ok(Some(700)));
    /// assert_eq!(it.next_back(), Ok(Some(150)));
    /// ```
    ///
    /// <details><summary>Contract</summary>
    ///
    /// As it is proved, in [these words](crate::words):
    ///
    /// ```text
    /// requires can_next { Self.ends.can_next self.old }
    /// requires finite { Self.contract.is_finite self.old }
    /// requires callable { CallableInSearch (call_by_reference F.FnMut) find_pick Self.ends.steps
    ///     (takes_by_reference F.FnMut) self.old f }
    /// ensures searched { (g : F) × SearchDrains (call_by_reference F.FnMut) find_pick Self.ends.steps None
    ///     self.old f result self.new g }
    /// ensures value { OverListWith (Acts (call_by_reference F.FnMut) f) Self.ends.steps self.old
    ///     (λ h l. result ≡ found h l) }
    /// ensures rest { (h : Self.Item → Result Bool Self.Error)
    ///     (l : List (Result Self.Item Self.Error)) → Acts (call_by_reference F.FnMut) f h
    ///     → ListsBothEnds Self.contract.steps Self.ends.steps self.old l
    ///     → (result ≡ found h (reverse l))
    ///     × ListsBothEnds Self.contract.steps Self.ends.steps self.new
    ///     (reverse (rest_true h (reverse l))) }
    /// ensures stays { Stays (from_back Self.contract Self.ends) self.old self.new }
    /// ```
    /// </details>
    fn rfind<F>(&mut self, f: F) -> Result<Option<Self::Item>, Self::Error>
    where
        F: FnMut(&Self::Item) -> Result<bool, Self::Error>,
    {
        let mut f = f;
        found(self.back_by_turns(&mut f, &FindTurn { test: &FindTest }))
    }

    /// Returns how many items come before the last one on which the predicate returns true; `Ok(None)` if there is none.
    ///
    /// It draws from the back up to the first item on which the predicate returns true or fails, the first failure or `Ok(None)`. If the predicate returned true, it then draws from the front, up to `Ok(None)` or the first failure, and counts: a fallible iterator doesn't know how many items stand before that one. So it consumes what is left if it finds one, unlike std's.
    ///
    /// It fails with the first failure: from the back one of this iterator or of the predicate, and then one of this iterator from the front. The iterator may be used again, from either end.
    ///
    /// Precondition, which is not checked: at most `usize::MAX` items are left.
    ///
    /// ```
    /// # use fallible_iterator::{convert};
    /// # use fallible_itertools::DoubleEndedFallibleItertools;
    /// let mut it = convert([Ok::<u32, u8>(150), Ok(700), Ok(7)].into_iter());
    /// assert_eq!(it.rposition(|reading| Ok(reading > 100)), Ok(Some(1)));
    /// ```
    ///
    /// <details><summary>Contract</summary>
    ///
    /// As it is proved, in [these words](crate::words):
    ///
    /// ```text
    /// requires can_next { Self.ends.can_next self.old }
    /// requires fits { AtMost Self.contract self.old (2 ^ 64 - 1) }
    /// requires callable { CallableInSearch (call_by_value F.FnMut) any_pick Self.ends.steps
    ///     (takes_by_value F.FnMut) self.old f }
    /// ensures placed { PlacedFromBack Self.contract.steps Self.ends.steps (call_by_value F.FnMut)
    ///     self.old f result self.new }
    /// ensures rest { (h : Self.Item → Result Bool Self.Error)
    ///     (l : List (Result Self.Item Self.Error)) → Acts (call_by_value F.FnMut) f h
    ///     → ListsBothEnds Self.contract.steps Self.ends.steps self.old l
    ///     → (result ≡ last_position_in h l)
    ///     × ListsBothEnds Self.contract.steps Self.ends.steps self.new (rest_position h l) }
    /// ensures kept { KeptByDraws (from_front Self.contract Self.ends) self.old self.new }
    /// ```
    /// </details>
    fn rposition<F>(&mut self, f: F) -> Result<Option<usize>, Self::Error>
    where
        F: FnMut(Self::Item) -> Result<bool, Self::Error>,
    {
        let mut f = f;
        let found = answer_or(self.back_by_turns(&mut f, &AnyTurn), false);
        number_left_if(self, found)
    }
}

impl<I: DoubleEndedFallibleIterator> DoubleEndedFallibleItertools for I {}
