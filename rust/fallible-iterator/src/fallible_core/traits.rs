//! The trait of fallible iterators: one call that each type writes, and all that comes with it.

mod borrowed;
#[cfg(feature = "alloc")]
mod boxed;
pub mod conversion;
pub mod double_ended;

use crate::fallible_contract::collecting::{Extended, Fault, PartitionTurn, UnzipTurn};
use crate::fallible_contract::comparing::{
    ByCmp, ByEq, ByPartialCmp, ReadEq, ReadGe, ReadGt, ReadLe, ReadLt, ReadNe, ordered,
};
use crate::fallible_contract::folds::{CountTurn, LastTurn, ReduceTurn, TryFoldTurn, Turn};
use crate::fallible_contract::picking::without_key;
use crate::fallible_contract::searching::{
    AllTurn, AnyTurn, FindMapTurn, FindTest, FindTurn, ForEachTurn, PositionTurn, answer_or,
    answer_or_none, found,
};
use crate::fallible_core::bridges::{Iterator, Unwrap};
use crate::fallible_core::comparing::{compare, compare_read};
use crate::fallible_core::cutting::{Fuse, Skip, StepBy, Take, TakeWhile};
use crate::fallible_core::ends::Rev;
use crate::fallible_core::filtering::{Filter, FilterMap, SkipWhile};
use crate::fallible_core::joining::{Chain, Cycle, FlatMap, Flatten, StillDrawn, Zip};
use crate::fallible_core::one_to_one::{Cloned, Enumerate, Inspect, Map, MapErr, MapWhile, Scan};
use crate::fallible_core::peeking::Peekable;
use crate::fallible_core::picking::{best_by, best_by_key};
use crate::fallible_core::traits::conversion::IntoFallibleIterator;
use crate::fallible_core::traits::double_ended::DoubleEndedFallibleIterator;
use core::cmp::Ordering;
use core::fmt::Debug;
use core::marker::PhantomData;
use core::ops::ControlFlow;

/// An iterator whose `next` may fail. It may go on after `Ok(None)` and after a failure.
///
/// A type of one's own writes `next` and `size_hint`, which has a default in Rust.
pub trait FallibleIterator {
    /// The type of its items.
    type Item;

    /// The type of its failures.
    type Error;

    /// Returns the next item, a failure or `Ok(None)`.
    ///
    /// It is one draw. After that `next` may be called again.
    ///
    /// ```
    /// # use fallible_iterator::{FallibleIterator, convert};
    /// let mut it = convert([Ok::<u32, u8>(150), Err(9)].into_iter());
    /// let drawn = [it.next(), it.next(), it.next()];
    /// assert_eq!(drawn, [Ok(Some(150)), Err(9), Ok(None)]);
    /// ```
    ///
    /// <details><summary>Contract</summary>
    ///
    /// As it is proved, in [these words](crate::words):
    ///
    /// ```text
    /// requires { contract.can_next self.old }
    /// ensures { contract.steps self.old result self.new }
    /// ```
    /// </details>
    fn next(&mut self) -> Result<Option<Self::Item>, Self::Error>;

    /// Returns bounds on the number of items up to the first `Ok(None)`, if no failure comes before it. A type that knows no bounds returns `(0, None)`.
    ///
    /// It draws nothing and never fails. The iterator is as before.
    ///
    /// ```
    /// # use fallible_iterator::{FallibleIterator, once};
    /// let mut it = once::<u32, u8>(150);
    /// assert_eq!(it.size_hint(), (1, Some(1)));
    /// assert_eq!(it.next(), Ok(Some(150)));
    /// assert_eq!(it.size_hint(), (0, Some(0)));
    /// ```
    ///
    /// <details><summary>Contract</summary>
    ///
    /// As it is proved, in [these words](crate::words):
    ///
    /// ```text
    /// ensures { contract.hints self.now result }
    /// ```
    /// </details>
    fn size_hint(&self) -> (usize, Option<usize>) {
        (0, None)
    }

    /// For types that override folds: draws until `Ok(None)`, a failure or a turn that stops the fold. It returns what `next` could: `Ok(None)`, the failure, or what the turn stopped with. `state` points to all that changes from turn to turn. Every fold goes through it. A caller uses `try_fold`.
    ///
    /// <details><summary>Contract</summary>
    ///
    /// As it is proved, in [these words](crate::words):
    ///
    /// ```text
    /// requires can_next { contract.can_next self.old }
    /// requires finite { contract.is_finite self.old }
    /// requires callable { fold.CallableDriving contract.steps (K.turns turn.now)
    ///     (K.can_turn turn.now) self.old state.old }
    /// ensures { fold.Driven contract.steps (K.turns turn.now) self.old state.old result
    ///     self.new state.new }
    /// ```
    /// </details>
    #[inline(always)]
    #[doc(hidden)]
    fn drive<C, R, K: Turn<C, Self::Item, R>>(
        &mut self,
        state: &mut C,
        turn: &K,
    ) -> Result<Option<R>, Self::Error>
    where
        Self: Sized,
    {
        let folded = self.try_fold((), |(), x| match turn.turn(state, x) {
            ControlFlow::Continue(()) => Ok(()),
            ControlFlow::Break(stop) => Err(Stop::Turn(stop)),
        });
        match folded {
            Ok(()) => Ok(None),
            Err(Stop::Turn(stop)) => Ok(Some(stop)),
            Err(Stop::Failure(e)) => Err(e),
        }
    }

    #[inline(always)]
    #[doc(hidden)]
    fn drive_try_fold<B, E, F>(&mut self, init: B, f: F) -> Result<B, E>
    where
        Self: Sized,
        E: From<Self::Error>,
        F: FnMut(B, Self::Item) -> Result<B, E>,
    {
        let mut state = (Some(init), f);
        let answer = self.drive(&mut state, &TryFoldTurn);
        let (value, _) = state;
        match answer {
            Ok(None) => match value {
                Some(value) => Ok(value),
                None => unreachable!(),
            },
            Ok(Some(e)) => Err(e),
            Err(e) => Err(E::from(e)),
        }
    }

    /// Returns the number of items up to `Ok(None)`.
    ///
    /// It draws up to `Ok(None)` or the first failure. It fails with that failure. It consumes the iterator.
    ///
    /// Precondition, which is not checked: at most `usize::MAX` items are left.
    ///
    /// ```
    /// # use fallible_iterator::{FallibleIterator, convert};
    /// let readings = [Ok::<u32, u8>(150), Ok(7), Ok(700)];
    /// assert_eq!(convert(readings.into_iter()).count(), Ok(3));
    ///
    /// let cut = [Ok::<u32, u8>(150), Err(9), Ok(700)];
    /// assert_eq!(convert(cut.into_iter()).count(), Err(9));
    /// ```
    ///
    /// <details><summary>Contract</summary>
    ///
    /// As it is proved, in [these words](crate::words):
    ///
    /// ```text
    /// requires can_next { contract.can_next self }
    /// requires fits { AtMost contract self (2 ^ 64 - 1) }
    /// ensures counted { (after : Self) × fold.CountDrains contract.steps self result after }
    /// ensures value { OverList contract.steps self (λ l. result ≡ list.counted l) }
    /// ```
    /// </details>
    fn count(mut self) -> Result<usize, Self::Error>
    where
        Self: Sized,
    {
        let mut number = 0;
        match self.drive(&mut number, &CountTurn) {
            Ok(None) => Ok(number),
            Ok(Some(never)) => match never {},
            Err(e) => Err(e),
        }
    }

    /// Returns the last item before `Ok(None)`; `Ok(None)` if there is none.
    ///
    /// Draws and errors: as `count`. It consumes the iterator too.
    ///
    /// Precondition, which is not checked: the iterator is finite.
    ///
    /// ```
    /// # use fallible_iterator::{FallibleIterator, convert};
    /// let readings = [Ok::<u32, u8>(150), Ok(7), Ok(700)];
    /// assert_eq!(convert(readings.into_iter()).last(), Ok(Some(700)));
    ///
    /// let cut = [Ok::<u32, u8>(150), Err(9), Ok(700)];
    /// assert_eq!(convert(cut.into_iter()).last(), Err(9));
    /// ```
    ///
    /// <details><summary>Contract</summary>
    ///
    /// As it is proved, in [these words](crate::words):
    ///
    /// ```text
    /// requires can_next { contract.can_next self }
    /// requires finite { contract.is_finite self }
    /// ensures last { (after : Self) × fold.LastDrains contract.steps self result after }
    /// ensures value { OverList contract.steps self (λ l. result ≡ list.last_of l) }
    /// ```
    /// </details>
    fn last(mut self) -> Result<Option<Self::Item>, Self::Error>
    where
        Self: Sized,
    {
        let mut last = None;
        match self.drive(&mut last, &LastTurn) {
            Ok(None) => Ok(last),
            Ok(Some(never)) => match never {},
            Err(e) => Err(e),
        }
    }

    /// Returns the item with n items before it; `Ok(None)` if the iterator ends first.
    ///
    /// It draws at most n + 1 times: up to that item, or a failure or `Ok(None)` before it. It fails with that failure. Nothing is drawn after that, and the iterator may be used again.
    ///
    /// ```
    /// # use fallible_iterator::{FallibleIterator, convert};
    /// let mut it = convert([Ok::<u32, u8>(0), Ok(1), Ok(2), Err(9), Ok(4)].into_iter());
    /// let drawn = [it.nth(1), it.nth(5), it.nth(0), it.nth(0)];
    /// assert_eq!(drawn, [Ok(Some(1)), Err(9), Ok(Some(4)), Ok(None)]);
    /// ```
    ///
    /// <details><summary>Contract</summary>
    ///
    /// As it is proved, in [these words](crate::words):
    ///
    /// ```text
    /// requires { contract.can_next self.old }
    /// ensures nth { fold.NthDrains contract.steps self.old n result self.new }
    /// ensures value { OverList contract.steps self.old (λ l. result ≡ list.nth_of n l) }
    /// ensures rest { OverList contract.steps self.old
    ///     (λ l. ¬ (result ≡ Ok None) → list.Lists contract.steps self.new (list.rest_nth n l)) }
    /// ensures stays { Stays contract self.old self.new }
    /// ```
    /// </details>
    fn nth(&mut self, n: usize) -> Result<Option<Self::Item>, Self::Error> {
        let mut left = n;
        while 0 < left {
            match self.next() {
                Ok(Some(_)) => {}
                Ok(None) => return Ok(None),
                Err(e) => return Err(e),
            }
            left -= 1;
        }
        self.next()
    }

    /// Calls the closure on the value so far and each item in order, and returns the last value at `Ok(None)`.
    ///
    /// It draws up to `Ok(None)`, the first failure or an item on which the closure fails. It fails with the iterator's failure, converted, or with the closure's error. Nothing is drawn after that, and the iterator may be used again.
    ///
    /// Precondition, which is not checked: the iterator is finite.
    ///
    /// ```
    /// # use fallible_iterator::{FallibleIterator, convert};
    /// let mut it = convert([Ok::<u8, &str>(100), Ok(100), Ok(100), Ok(7)].into_iter());
    /// let sum: Result<u8, &str> = it.try_fold(
    ///     0,
    ///     |sum: u8, x: u8| sum.checked_add(x).ok_or("too large"),
    /// );
    /// assert_eq!(sum, Err("too large"));
    /// assert_eq!(it.next(), Ok(Some(7)));
    /// ```
    ///
    /// <details><summary>Contract</summary>
    ///
    /// As it is proved, in [these words](crate::words):
    ///
    /// ```text
    /// requires can_next { contract.can_next self.old }
    /// requires finite { contract.is_finite self.old }
    /// requires callable { fold.CallableInFold contract.steps (fold.call_with F.FnMut)
    ///     (fold.takes_with F.FnMut) self.old f init }
    /// ensures folded { fold.FoldDrains contract.steps (fold.call_with F.FnMut) E.from_gives
    ///     self.old init f result self.new }
    /// ensures value { (convert : Self.Error → E) → list.Converts E.from_gives convert
    ///     → OverListWith (list.ActsWith (fold.call_with F.FnMut) f) contract.steps self.old
    ///     (λ h l. result ≡ list.folded convert h init l) }
    /// ensures rest { OverListWith (list.ActsWith (fold.call_with F.FnMut) f) contract.steps
    ///     self.old (λ h l. (e : E) → result ≡ Err e
    ///     → list.Lists contract.steps self.new (list.rest_fold h init l)) }
    /// ensures stays { Stays contract self.old self.new }
    /// ```
    /// </details>
    #[inline(always)]
    fn try_fold<B, E, F>(&mut self, init: B, f: F) -> Result<B, E>
    where
        Self: Sized,
        E: From<Self::Error>,
        F: FnMut(B, Self::Item) -> Result<B, E>,
    {
        let mut f = f;
        let mut value = init;
        while let Some(x) = self.next()? {
            value = f(value, x)?;
        }
        Ok(value)
    }

    /// As `try_fold`, but the closure fails with the iterator's own error, and the iterator is consumed.
    ///
    /// It draws up to `Ok(None)`, the first failure or an item on which the closure fails. It fails with the first failure, of this iterator or of the closure.
    ///
    /// Precondition, which is not checked: the iterator is finite.
    ///
    /// ```
    /// # use fallible_iterator::{FallibleIterator, convert};
    /// let readings = [Ok::<u32, u8>(150), Ok(7), Ok(700)];
    /// let sum = convert(readings.into_iter()).fold(0, |sum: u32, reading: u32| {
    ///     Ok(sum.wrapping_add(reading))
    /// });
    /// assert_eq!(sum, Ok(857));
    /// ```
    ///
    /// <details><summary>Contract</summary>
    ///
    /// As it is proved, in [these words](crate::words):
    ///
    /// ```text
    /// requires can_next { contract.can_next self }
    /// requires finite { contract.is_finite self }
    /// requires callable { fold.CallableInFold contract.steps (fold.call_with F.FnMut)
    ///     (fold.takes_with F.FnMut) self f init }
    /// ensures folded { (left : Self) × fold.FoldDrains contract.steps (fold.call_with F.FnMut)
    ///     (λ e d. d ≡ e) self init f result left }
    /// ensures value { OverListWith (list.ActsWith (fold.call_with F.FnMut) f) contract.steps self
    ///     (λ h l. result ≡ list.folded (λ e. e) h init l) }
    /// ```
    /// </details>
    fn fold<B, F>(mut self, init: B, f: F) -> Result<B, Self::Error>
    where
        Self: Sized,
        F: FnMut(B, Self::Item) -> Result<B, Self::Error>,
    {
        self.try_fold(init, f)
    }

    /// As `fold`, from the first item on: that item is the value so far, and the closure is called on it and each further item. It returns `Ok(None)` if no item comes.
    ///
    /// Draws, errors and precondition: as `fold`. It consumes the iterator too.
    ///
    /// ```
    /// # use fallible_iterator::{FallibleIterator, convert};
    /// let readings = [Ok::<u32, u8>(150), Ok(7), Ok(700)];
    /// let sum = convert(readings.into_iter()).reduce(|sum, reading| Ok(sum.wrapping_add(reading)));
    /// assert_eq!(sum, Ok(Some(857)));
    /// ```
    ///
    /// <details><summary>Contract</summary>
    ///
    /// As it is proved, in [these words](crate::words):
    ///
    /// ```text
    /// requires can_next { contract.can_next self }
    /// requires finite { contract.is_finite self }
    /// requires callable { fold.CallableInFold contract.steps
    ///     (fold.ReduceCall (fold.call_with F.FnMut))
    ///     (fold.reduce_takes (fold.takes_with F.FnMut)) self f None }
    /// ensures reduced { (left : Self) × fold.FoldDrains contract.steps
    ///     (fold.ReduceCall (fold.call_with F.FnMut)) (λ e d. d ≡ e) self None f result left }
    /// ensures value { OverListWith (list.ActsWith (fold.call_with F.FnMut) f) contract.steps self
    ///     (λ h l. result ≡ list.reduced h l) }
    /// ```
    /// </details>
    fn reduce<F>(mut self, f: F) -> Result<Option<Self::Item>, Self::Error>
    where
        Self: Sized,
        F: FnMut(Self::Item, Self::Item) -> Result<Self::Item, Self::Error>,
    {
        let mut state = (None, f);
        let answer = self.drive(&mut state, &ReduceTurn);
        let (value, _) = state;
        match answer {
            Ok(None) => Ok(value),
            Ok(Some(e)) => Err(e),
            Err(e) => Err(e),
        }
    }

    /// Yields what the closure returns for each item.
    ///
    /// Creating it draws nothing and calls nothing. `next` draws once. It fails as the source does. If the closure fails, its failure is yielded, and the item is lost. After a failure and after `Ok(None)` the next call draws again.
    ///
    /// ```
    /// # use fallible_iterator::{FallibleIterator, convert};
    /// let readings = [Ok::<u32, u8>(150), Ok(7), Ok(700)];
    /// let mut it = convert(readings.into_iter()).map(|reading| if reading < 10 {
    ///     Err(9)
    /// } else {
    ///     Ok(reading / 10)
    /// });
    /// let drawn = [it.next(), it.next(), it.next(), it.next()];
    /// assert_eq!(drawn, [Ok(Some(15)), Err(9), Ok(Some(70)), Ok(None)]);
    /// ```
    ///
    /// <details><summary>Contract</summary>
    ///
    /// As it is proved, in [these words](crate::words):
    ///
    /// ```text
    /// requires { IsCallable (call_by_value F.FnMut) (takes_by_value F.FnMut) (contract.may_give self) f }
    /// ensures parts { map_parts result ≡ (self, f) }
    /// ensures lists { OverListWith (list.Acts (call_by_value F.FnMut) f) contract.steps self
    ///     (λ h l. list.Lists (parts_as map_parts (map_contract contract F.FnMut)).steps
    ///     result (mapped h l)) }
    /// ```
    /// </details>
    fn map<F, B>(self, f: F) -> Map<Self, F>
    where
        Self: Sized,
        F: FnMut(Self::Item) -> Result<B, Self::Error>,
    {
        Map { it: self, f }
    }

    /// Yields the items for which the predicate returns true. The others are dropped.
    ///
    /// Creating it draws nothing and calls nothing. `next` draws until an item is kept, or a failure or `Ok(None)` comes. It fails as the source does. If the predicate fails, its failure is yielded, and the item is lost. After a failure and after `Ok(None)` the next call draws again.
    ///
    /// Precondition, which is not checked: the iterator is finite, since one call may leave many items out.
    ///
    /// ```
    /// # use fallible_iterator::{FallibleIterator, convert};
    /// let readings = [Ok::<u32, u8>(150), Ok(7), Err(9), Ok(700)];
    /// let mut it = convert(readings.into_iter()).filter(|reading| Ok(*reading > 100));
    /// let drawn = [it.next(), it.next(), it.next(), it.next()];
    /// assert_eq!(drawn, [Ok(Some(150)), Err(9), Ok(Some(700)), Ok(None)]);
    /// ```
    ///
    /// <details><summary>Contract</summary>
    ///
    /// As it is proved, in [these words](crate::words):
    ///
    /// ```text
    /// requires finite { contract.is_finite self }
    /// requires callable { IsCallable (call_by_reference F.FnMut) (takes_by_reference F.FnMut)
    ///     (contract.may_give self) f }
    /// ensures parts { filter_parts result ≡ (self, f) }
    /// ensures lists { OverListWith (list.Acts (call_by_reference F.FnMut) f) contract.steps self
    ///     (λ h l. list.Lists (parts_as filter_parts (filter_contract contract F.FnMut)).steps
    ///     result (filtered h l)) }
    /// ```
    /// </details>
    fn filter<F>(self, f: F) -> Filter<Self, F>
    where
        Self: Sized,
        F: FnMut(&Self::Item) -> Result<bool, Self::Error>,
    {
        Filter { it: self, f }
    }

    /// Yields the source's items up to the n-th, and then `Ok(None)`. Failures and `Ok(None)` of the source pass, and don't count.
    ///
    /// Creating it draws nothing. `next` draws once, and nothing after the n-th item. It fails as the source does. Behaviour after a failure and after `Ok(None)`, up to the n-th item: as `map`. After that item each call returns `Ok(None)`.
    ///
    /// ```
    /// # use fallible_iterator::{FallibleIterator, convert};
    /// let readings = [Ok::<u32, u8>(150), Err(9), Ok(7), Ok(700)];
    /// let mut it = convert(readings.into_iter()).take(2);
    /// let drawn = [it.next(), it.next(), it.next(), it.next()];
    /// assert_eq!(drawn, [Ok(Some(150)), Err(9), Ok(Some(7)), Ok(None)]);
    /// ```
    ///
    /// <details><summary>Contract</summary>
    ///
    /// As it is proved, in [these words](crate::words):
    ///
    /// ```text
    /// ensures parts { take_parts result ≡ (self, n) }
    /// ensures lists { OverList contract.steps self
    ///     (λ l. list.Lists (parts_as take_parts (take_contract contract)).steps result
    ///     (taken n l)) }
    /// ensures repeats { (x : Self.Item) → list.Repeats contract.steps self (Ok x)
    ///     → list.Lists (parts_as take_parts (take_contract contract)).steps result
    ///     (list.repeated n x) }
    /// ```
    /// </details>
    fn take(self, n: usize) -> Take<Self>
    where
        Self: Sized,
    {
        Take {
            it: self,
            to_take: n,
        }
    }

    /// Yields the items before the first one that the predicate rejects. That one is lost, and the adapter is exhausted.
    ///
    /// Up to the rejected item: laziness, draws, errors and behaviour after `Ok(None)` as `map`. After that item it draws nothing, and each call returns `Ok(None)`.
    ///
    /// ```
    /// # use fallible_iterator::{FallibleIterator, convert};
    /// let readings = [Ok::<u32, u8>(150), Ok(7), Ok(700)];
    /// let mut it = convert(readings.into_iter()).take_while(|reading| Ok(*reading > 100));
    /// let drawn = [it.next(), it.next(), it.next()];
    /// assert_eq!(drawn, [Ok(Some(150)), Ok(None), Ok(None)]);
    /// ```
    ///
    /// <details><summary>Contract</summary>
    ///
    /// As it is proved, in [these words](crate::words):
    ///
    /// ```text
    /// requires { IsCallable (call_by_reference P.FnMut)
    ///     (takes_by_reference P.FnMut) (contract.may_give self) predicate }
    /// ensures source { take_while.take_while_source result ≡ self }
    /// ensures predicate { take_while.take_while_predicate result ≡ predicate }
    /// ensures refused { take_while.take_while_refused result ≡ false }
    /// ensures lists { OverListWith (list.Acts (call_by_reference P.FnMut) predicate) contract.steps self
    ///     (λ h l. list.Lists (seen_as take_while.take_while_parts
    ///     (take_while.take_while_contract contract P.FnMut)).steps
    ///     result (take_while.taken_while h l)) }
    /// ```
    /// </details>
    fn take_while<P>(self, predicate: P) -> TakeWhile<Self, P>
    where
        Self: Sized,
        P: FnMut(&Self::Item) -> Result<bool, Self::Error>,
    {
        TakeWhile {
            it: self,
            taking: (false, predicate),
        }
    }

    /// Yields what the source yields up to its first `Ok(None)`. From there on each call returns `Ok(None)`.
    ///
    /// Creating it draws nothing. `next` draws once, and nothing after that `Ok(None)`. It fails as the source does. A failure doesn't exhaust it: the next call draws again.
    ///
    /// ```
    /// # use fallible_iterator::{FallibleIterator, from_fn};
    /// let mut calls = 0u32;
    /// let mut it = from_fn(|| -> Result<Option<u32>, u8> {
    ///     calls = calls.wrapping_add(1);
    ///     Ok(if calls == 2 { None } else { Some(calls) })
    /// })
    /// .fuse();
    /// let drawn = [it.next(), it.next(), it.next()];
    /// assert_eq!(drawn, [Ok(Some(1)), Ok(None), Ok(None)]);
    /// ```
    ///
    /// <details><summary>Contract</summary>
    ///
    /// As it is proved, in [these words](crate::words):
    ///
    /// ```text
    /// ensures parts { fuse_parts result ≡ (self, false) }
    /// ensures lists { OverList contract.steps self
    ///     (λ l. list.Lists (parts_as fuse_parts (fuse_contract contract)).steps result l) }
    /// ensures for_good { OverList contract.steps self
    ///     (λ l. list.ListsForGood (parts_as fuse_parts (fuse_contract contract)).steps result l) }
    /// ```
    /// </details>
    fn fuse(self) -> Fuse<Self>
    where
        Self: Sized,
    {
        Fuse {
            it: self,
            ended: false,
        }
    }

    /// Skips the first n items.
    ///
    /// Creating it draws nothing. `next` draws at most n + 1 times. It fails as the source does. A failure or an `Ok(None)` among the first n items is returned, and the rest of them is skipped after it.
    ///
    /// ```
    /// # use fallible_iterator::{FallibleIterator, convert};
    /// let readings = [Ok::<u32, u8>(150), Err(9), Ok(7), Ok(700)];
    /// let mut it = convert(readings.into_iter()).skip(2);
    /// let drawn = [it.next(), it.next(), it.next()];
    /// assert_eq!(drawn, [Err(9), Ok(Some(700)), Ok(None)]);
    /// ```
    ///
    /// <details><summary>Contract</summary>
    ///
    /// As it is proved, in [these words](crate::words):
    ///
    /// ```text
    /// ensures parts { skip_parts result ≡ (self, n) }
    /// ensures lists { OverList contract.steps self
    ///     (λ l. list.Lists (parts_as skip_parts (skip_contract contract)).steps result
    ///     (skipped n l)) }
    /// ```
    /// </details>
    fn skip(self, n: usize) -> Skip<Self>
    where
        Self: Sized,
    {
        Skip {
            it: self,
            to_skip: n,
        }
    }

    /// Yields the first item, and then every `step`-th one. Failures and `Ok(None)` pass, and don't count.
    ///
    /// Creating it draws nothing. `next` draws at most `step` times. It fails as the source does. After a failure and after `Ok(None)` it goes on counting.
    ///
    /// In Rust it panics if the step is 0.
    ///
    /// ```
    /// # use fallible_iterator::{FallibleIterator, convert};
    /// let numbers = [Ok::<u32, u8>(0), Ok(1), Ok(2), Ok(3), Ok(4)];
    /// let mut it = convert(numbers.into_iter()).step_by(2);
    /// let drawn = [it.next(), it.next(), it.next(), it.next()];
    /// assert_eq!(drawn, [Ok(Some(0)), Ok(Some(2)), Ok(Some(4)), Ok(None)]);
    /// ```
    ///
    /// <details><summary>Contract</summary>
    ///
    /// As it is proved, in [these words](crate::words):
    ///
    /// ```text
    /// requires { 1 ≤ step }
    /// ensures source { step_by.step_by_source result ≡ self }
    /// ensures between { step_by.step_by_between result ≡ step - 1 }
    /// ensures to_skip { step_by.step_by_to_skip result ≡ 0 }
    /// ensures lists { OverList contract.steps self
    ///     (λ l. list.Lists (seen_as step_by.step_by_parts
    ///     (step_by.step_by_contract contract)).steps result (step_by.stepped (step - 1) 0 l)) }
    /// ```
    /// </details>
    fn step_by(self, step: usize) -> StepBy<Self>
    where
        Self: Sized,
    {
        assert!(step != 0);
        StepBy {
            it: self,
            between: step - 1,
            to_skip: 0,
        }
    }

    /// Yields the values that the closure returns for the items. An item for which it returns `None` is left out.
    ///
    /// Laziness, draws, errors and behaviour after `Ok(None)`: as `filter`.
    ///
    /// Precondition, which is not checked: the iterator is finite, as for `filter`.
    ///
    /// ```
    /// # use fallible_iterator::{FallibleIterator, convert};
    /// let words = [Ok::<&str, u8>("150"), Ok("none"), Err(9), Ok("700")];
    /// let mut it = convert(words.into_iter()).filter_map(|word| Ok(word.parse::<u32>().ok()));
    /// let drawn = [it.next(), it.next(), it.next(), it.next()];
    /// assert_eq!(drawn, [Ok(Some(150)), Err(9), Ok(Some(700)), Ok(None)]);
    /// ```
    ///
    /// <details><summary>Contract</summary>
    ///
    /// As it is proved, in [these words](crate::words):
    ///
    /// ```text
    /// requires finite { contract.is_finite self }
    /// requires callable { IsCallable (call_by_value F.FnMut) (takes_by_value F.FnMut)
    ///     (contract.may_give self) f }
    /// ensures parts { filter_map_parts result ≡ (self, f) }
    /// ensures lists { OverListWith (list.Acts (call_by_value F.FnMut) f) contract.steps self
    ///     (λ h l. list.Lists (parts_as filter_map_parts
    ///     (filter_map_contract contract F.FnMut)).steps result (filter_mapped h l)) }
    /// ```
    /// </details>
    fn filter_map<B, F>(self, f: F) -> FilterMap<Self, F>
    where
        Self: Sized,
        F: FnMut(Self::Item) -> Result<Option<B>, Self::Error>,
    {
        FilterMap { it: self, f }
    }

    /// Calls the closure on a reference to each item, and then yields the item.
    ///
    /// Laziness, draws, errors and behaviour after `Ok(None)`: as `map`.
    ///
    /// ```
    /// # use fallible_iterator::{FallibleIterator, convert};
    /// let readings = [Ok::<u32, u8>(150), Err(9), Ok(700)];
    /// let mut sum = 0u32;
    /// let drained = convert(readings.into_iter())
    ///     .inspect(|reading| {
    ///         sum = sum.wrapping_add(*reading);
    ///         Ok(())
    ///     })
    ///     .count();
    /// assert_eq!((drained, sum), (Err(9), 150));
    /// ```
    ///
    /// <details><summary>Contract</summary>
    ///
    /// As it is proved, in [these words](crate::words):
    ///
    /// ```text
    /// requires { IsCallable (call_by_reference F.FnMut) (takes_by_reference F.FnMut) (contract.may_give self) f }
    /// ensures parts { inspect_parts result ≡ (self, f) }
    /// ensures lists { OverListWith (list.Acts (call_by_reference F.FnMut) f) contract.steps self
    ///     (λ h l. list.Lists (parts_as inspect_parts (inspect_contract contract F.FnMut)).steps
    ///     result (inspected h l)) }
    /// ```
    /// </details>
    fn inspect<F>(self, f: F) -> Inspect<Self, F>
    where
        Self: Sized,
        F: FnMut(&Self::Item) -> Result<(), Self::Error>,
    {
        Inspect { it: self, f }
    }

    /// Replaces each failure by what the closure returns for it. The closure is called once on each failure, and on nothing else.
    ///
    /// Laziness, draws and behaviour after `Ok(None)`: as `map`. It fails where the source does, with what the closure returns.
    ///
    /// ```
    /// # use fallible_iterator::{FallibleIterator, convert};
    /// let readings = [Ok::<u32, u8>(150), Err(9)];
    /// let mut it = convert(readings.into_iter()).map_err(|code| (code, "no reading"));
    /// let drawn = [it.next(), it.next(), it.next()];
    /// assert_eq!(drawn, [Ok(Some(150)), Err((9, "no reading")), Ok(None)]);
    /// ```
    ///
    /// <details><summary>Contract</summary>
    ///
    /// As it is proved, in [these words](crate::words):
    ///
    /// ```text
    /// requires { IsCallable (call_by_value F.FnMut) (takes_by_value F.FnMut) (contract.may_fail self) f }
    /// ensures parts { map_err_parts result ≡ (self, f) }
    /// ensures lists { OverListWith (list.Acts (call_by_value F.FnMut) f) contract.steps self
    ///     (λ h l. list.Lists (parts_as map_err_parts (map_err_contract contract F.FnMut)).steps
    ///     result (failures_mapped h l)) }
    /// ```
    /// </details>
    fn map_err<B, F>(self, f: F) -> MapErr<Self, F>
    where
        Self: Sized,
        F: FnMut(Self::Error) -> B,
    {
        MapErr { it: self, f }
    }

    /// Pairs each item with the number of items before it, from 0 on. Failures and `Ok(None)` don't count.
    ///
    /// Laziness, draws and behaviour after `Ok(None)`: as `map`. It fails as the source does.
    ///
    /// Precondition, which is not checked: at most `usize::MAX` items are still to come, so that each number fits.
    ///
    /// ```
    /// # use fallible_iterator::{FallibleIterator, convert};
    /// let letters = [Ok::<char, u8>('a'), Err(9), Ok('b')];
    /// let mut it = convert(letters.into_iter()).enumerate();
    /// let drawn = [it.next(), it.next(), it.next(), it.next()];
    /// assert_eq!(drawn,
    ///     [Ok(Some((0, 'a'))), Err(9), Ok(Some((1, 'b'))), Ok(None)]
    /// );
    /// ```
    ///
    /// <details><summary>Contract</summary>
    ///
    /// As it is proved, in [these words](crate::words):
    ///
    /// ```text
    /// requires { AtMost contract self (2 ^ 64 - 1) }
    /// ensures parts { enumerate_parts result ≡ (self, 0) }
    /// ensures numberable { contract.can_next self → IsNumberable contract self 0 }
    /// ensures lists { OverList contract.steps self
    ///     (λ l. list.Lists (parts_as enumerate_parts (enumerate_contract contract)).steps
    ///     result (numbered 0 l)) }
    /// ```
    /// </details>
    fn enumerate(self) -> Enumerate<Self>
    where
        Self: Sized,
    {
        Enumerate { it: self, count: 0 }
    }

    /// Skips the items before the first one for which the predicate returns false. The predicate isn't called after that.
    ///
    /// Laziness, draws, errors and behaviour after `Ok(None)`: as `filter`. If the predicate fails, the skipping goes on.
    ///
    /// Precondition, which is not checked: the iterator is finite, as for `filter`.
    ///
    /// ```
    /// # use fallible_iterator::{FallibleIterator, convert};
    /// let readings = [Ok::<u32, u8>(7), Ok(150), Ok(8)];
    /// let mut it = convert(readings.into_iter()).skip_while(|reading| Ok(*reading < 100));
    /// let drawn = [it.next(), it.next(), it.next()];
    /// assert_eq!(drawn, [Ok(Some(150)), Ok(Some(8)), Ok(None)]);
    /// ```
    ///
    /// <details><summary>Contract</summary>
    ///
    /// As it is proved, in [these words](crate::words):
    ///
    /// ```text
    /// requires finite { contract.is_finite self }
    /// requires callable { IsCallable (skip_while.skip_call (call_by_reference P.FnMut))
    ///     (skip_while.skip_takes (takes_by_reference P.FnMut)) (contract.may_give self) (false, predicate) }
    /// ensures source { skip_while.skip_while_source result ≡ self }
    /// ensures found { skip_while.skip_while_found result ≡ false }
    /// ensures predicate { skip_while.skip_while_predicate result ≡ predicate }
    /// ensures lists { OverListWith (list.Acts (call_by_reference P.FnMut) predicate) contract.steps self
    ///     (λ h l. list.Lists (seen_as skip_while.skip_while_parts
    ///     (skip_while.skip_while_contract contract P.FnMut)).steps
    ///     result (skip_while.skipped_while h l)) }
    /// ```
    /// </details>
    fn skip_while<P>(self, predicate: P) -> SkipWhile<Self, P>
    where
        Self: Sized,
        P: FnMut(&Self::Item) -> Result<bool, Self::Error>,
    {
        SkipWhile {
            it: self,
            skipping: (false, predicate),
        }
    }

    /// Yields the values that the closure returns for the items. Where it returns `None`, the adapter returns `Ok(None)`.
    ///
    /// Laziness, draws, errors, precondition and behaviour after `Ok(None)`: as `map`, also after a `None` of the closure.
    ///
    /// ```
    /// # use fallible_iterator::{FallibleIterator, convert};
    /// let words = [Ok::<&str, u8>("150"), Ok("none"), Ok("700")];
    /// let mut it = convert(words.into_iter()).map_while(|word| Ok(word.parse::<u32>().ok()));
    /// let drawn = [it.next(), it.next(), it.next(), it.next()];
    /// assert_eq!(drawn, [Ok(Some(150)), Ok(None), Ok(Some(700)), Ok(None)]);
    /// ```
    ///
    /// <details><summary>Contract</summary>
    ///
    /// As it is proved, in [these words](crate::words):
    ///
    /// ```text
    /// requires { IsCallable (call_by_value F.FnMut) (takes_by_value F.FnMut) (contract.may_give self) f }
    /// ensures parts { map_while_parts result ≡ (self, f) }
    /// ensures lists { OverListWith (list.Acts (call_by_value F.FnMut) f) contract.steps self
    ///     (λ h l. list.Lists (parts_as map_while_parts (map_while_contract contract F.FnMut)).steps
    ///     result (mapped_while h l)) }
    /// ```
    /// </details>
    fn map_while<F, B>(self, f: F) -> MapWhile<Self, F>
    where
        Self: Sized,
        F: FnMut(Self::Item) -> Result<Option<B>, Self::Error>,
    {
        MapWhile { it: self, f }
    }

    /// Yields the values that the closure returns for the state and each item. Where it returns `None`, the adapter returns `Ok(None)`.
    ///
    /// Laziness, draws, errors and behaviour after `Ok(None)`: as `map`, also after a `None` of the closure. The state stays as the closure left it.
    ///
    /// ```
    /// # use fallible_iterator::{FallibleIterator, convert};
    /// let readings = [Ok::<u32, u8>(150), Ok(7), Ok(700)];
    /// let mut sums = convert(readings.into_iter()).scan(0, |sum: &mut u32, reading: u32| {
    ///     *sum = sum.wrapping_add(reading);
    ///     Ok(Some(*sum))
    /// });
    /// let drawn = [sums.next(), sums.next(), sums.next(), sums.next()];
    /// assert_eq!(drawn,
    ///     [Ok(Some(150)), Ok(Some(157)), Ok(Some(857)), Ok(None)]
    /// );
    /// ```
    ///
    /// <details><summary>Contract</summary>
    ///
    /// As it is proved, in [these words](crate::words):
    ///
    /// ```text
    /// requires { IsCallable (scan.scan_call F.FnMut) (scan.scan_takes F.FnMut)
    ///     (contract.may_give self) (initial_state, f) }
    /// ensures source { scan.scan_source result ≡ self }
    /// ensures state { scan.scan_state result ≡ initial_state }
    /// ensures closure { scan.scan_closure result ≡ f }
    /// ensures lists { OverListWith (list.ActsWithState (scan.scan_call F.FnMut) f) contract.steps
    ///     self
    ///     (λ next l. list.Lists
    ///     (seen_as scan.scan_parts (scan.scan_contract contract F.FnMut)).steps
    ///     result (scan.scanned next initial_state l)) }
    /// ```
    /// </details>
    fn scan<St, B, F>(self, initial_state: St, f: F) -> Scan<Self, St, F>
    where
        Self: Sized,
        F: FnMut(&mut St, Self::Item) -> Result<Option<B>, Self::Error>,
    {
        Scan {
            it: self,
            scanning: (initial_state, f),
        }
    }

    /// Yields a clone of what each item points to.
    ///
    /// Laziness, draws and behaviour after `Ok(None)`: as `map`. It fails as the source does.
    ///
    /// ```
    /// # use fallible_iterator::{FallibleIterator, convert};
    /// let readings = [150, 7];
    /// let mut it = convert(readings.iter().map(Ok::<&u32, u8>)).cloned();
    /// let drawn = [it.next(), it.next(), it.next()];
    /// assert_eq!(drawn, [Ok(Some(150)), Ok(Some(7)), Ok(None)]);
    /// ```
    ///
    /// <details><summary>Contract</summary>
    ///
    /// As it is proved, in [these words](crate::words):
    ///
    /// ```text
    /// ensures parts { cloned_parts result ≡ (self, tt) }
    /// ensures lists { OverList contract.steps self
    ///     (λ l. ((x y : T) → T.is_clone x y → y ≡ x) → ((x : T) → T.is_infallible x)
    ///     → list.Lists (parts_as cloned_parts (cloned_contract T.is_clone T.is_infallible
    ///     Self.Error.from_gives contract)).steps result (pointed_to l)) }
    /// ensures until_refused { OverList contract.steps self
    ///     (λ l. ListsUntilRefused T.is_clone (parts_as cloned_parts (cloned_contract T.is_clone
    ///     T.is_infallible Self.Error.from_gives contract)).steps Self.Error.from_gives result
    ///     (pointed_to l)) }
    /// ```
    /// </details>
    fn cloned<'a, T: 'a>(self) -> Cloned<Self>
    where
        Self: Sized,
        Self: FallibleIterator<Item = &'a T>,
        T: Clone,
    {
        Cloned { it: self }
    }

    /// Swaps the two ends: a draw from the front of the adapter is a draw from the back of the source, and the other way round.
    ///
    /// Each call draws once, from the other end. It fails as that draw does. Laziness and behaviour after `Ok(None)`: as `map`.
    ///
    /// ```
    /// # use fallible_iterator::{FallibleIterator, convert};
    /// let readings = [Ok::<u32, u8>(150), Ok(7), Err(9)];
    /// let mut it = convert(readings.into_iter()).rev();
    /// let drawn = [it.next(), it.next(), it.next(), it.next()];
    /// assert_eq!(drawn, [Err(9), Ok(Some(7)), Ok(Some(150)), Ok(None)]);
    /// ```
    ///
    /// <details><summary>Contract</summary>
    ///
    /// As it is proved, in [these words](crate::words):
    ///
    /// ```text
    /// ensures parts { rev_parts result ≡ self }
    /// ensures lists { OverList Self.DoubleEndedFallibleIterator.ends.steps self
    ///     (λ l. list.Lists (parts_as rev_parts
    ///     (rev_contract contract Self.DoubleEndedFallibleIterator.ends)).steps result l) }
    /// ```
    /// </details>
    fn rev(self) -> Rev<Self>
    where
        Self: Sized,
        Self: DoubleEndedFallibleIterator,
    {
        Rev { it: self }
    }

    /// Yields what this iterator yields up to its first `Ok(None)`, and then what `it` yields.
    ///
    /// Creating it draws nothing. It keeps the iterator that `it` becomes. `next` draws once; if that draw is the first `Ok(None)`, it draws `it` in the same call. It fails as the side does that is drawn. A failure passes, and changes no side. From the first `Ok(None)` on only `it` is drawn.
    ///
    /// ```
    /// # use fallible_iterator::{FallibleIterator, convert};
    /// let first = convert([Ok::<u32, u8>(150), Err(9)].into_iter());
    /// let second = convert([Ok(700)].into_iter());
    /// let mut it = first.chain(second);
    /// let drawn = [it.next(), it.next(), it.next(), it.next()];
    /// assert_eq!(drawn, [Ok(Some(150)), Err(9), Ok(Some(700)), Ok(None)]);
    /// ```
    ///
    /// <details><summary>Contract</summary>
    ///
    /// As it is proved, where its signature is another, in [these words](crate::words):
    ///
    /// ```text
    /// ensures first { chain.chain_first result ≡ self }
    /// ensures second { I.into_gives it (chain.chain_second result) }
    /// ensures still_drawn { chain.chain_still_drawn result ≡ Both }
    /// ensures lists { OverBoth contract.steps self I.into_gives it
    ///     I.IntoFallibleIter.contract.steps
    ///     (λ a b. list.Lists (seen_as chain.chain_parts (chain.chain_contract contract
    ///     I.IntoFallibleIter.contract)).steps result (chain.chained a b)) }
    /// ```
    /// </details>
    fn chain<I>(self, it: I) -> Chain<Self, I>
    where
        Self: Sized,
        I: IntoFallibleIterator<Item = Self::Item, Error = Self::Error>,
    {
        Chain {
            first: self,
            second: it,
            still_drawn: StillDrawn::Both,
        }
    }

    /// Pairs each item with one of `o`. If neither side fails and one of them returns `Ok(None)`, so does the adapter.
    ///
    /// Laziness: as `chain`. `next` draws once. Then, unless that failed, it draws `o` once, also after an `Ok(None)`. It fails as this iterator does, or else as `o` does. An item beside a failure or an `Ok(None)` is lost, and the next call draws both again.
    ///
    /// ```
    /// # use fallible_iterator::{FallibleIterator, convert};
    /// let letters = convert([Ok::<char, u8>('a'), Ok('b'), Ok('c')].into_iter());
    /// let numbers = convert([Ok(1), Err(9), Ok(2)].into_iter());
    /// let mut it = letters.zip(numbers);
    /// let drawn = [it.next(), it.next(), it.next(), it.next()];
    /// assert_eq!(drawn,
    ///     [Ok(Some(('a', 1))), Err(9), Ok(Some(('c', 2))), Ok(None)]
    /// );
    /// ```
    ///
    /// <details><summary>Contract</summary>
    ///
    /// As it is proved, in [these words](crate::words):
    ///
    /// ```text
    /// ensures left { zip.zip_left result ≡ self }
    /// ensures right { I.into_gives o (zip.zip_right result) }
    /// ensures lists { OverBoth contract.steps self I.into_gives o
    ///     I.IntoFallibleIter.contract.steps
    ///     (λ a b. zip.NoFailureAtEnd a b
    ///     → list.Lists (seen_as zip.zip_parts (zip.zip_contract contract
    ///     I.IntoFallibleIter.contract)).steps result (zip.zipped a b)) }
    /// ensures items { OverList contract.steps self
    ///     (λ a. (b : List I.Item)
    ///     → ((right : I.IntoFallibleIter) → I.into_gives o right
    ///     → list.Lists I.IntoFallibleIter.contract.steps right (list.items b))
    ///     → list.Lists (seen_as zip.zip_parts (zip.zip_contract contract
    ///     I.IntoFallibleIter.contract)).steps result (zip.zipped a (list.items b))) }
    /// ```
    /// </details>
    fn zip<I>(self, o: I) -> Zip<Self, I::IntoFallibleIter>
    where
        Self: Sized,
        I: IntoFallibleIterator<Error = Self::Error>,
    {
        Zip {
            left: self,
            right: o.into_fallible_iter(),
        }
    }

    /// Turns each item into an inner iterator, and yields what these yield, one after another. The current one is drawn until its `Ok(None)`, and is dropped then. Then the next item is drawn.
    ///
    /// Creating it draws nothing. `next` draws the current inner iterator, and this one only if there is no current one, or it ended. It fails as either does. After a failure of the inner iterator it stays the current one. After a failure or an `Ok(None)` of this iterator the next call draws this iterator again.
    ///
    /// Precondition, which is not checked: the iterator is finite, since many inner iterators may end in one call.
    ///
    /// ```
    /// # use fallible_iterator::{FallibleIterator, convert};
    /// let inner = [
    ///     convert([Ok::<u32, u8>(1), Err(9)].into_iter()),
    ///     convert([Ok(2), Ok(3)].into_iter()),
    /// ];
    /// let mut it = convert(inner.into_iter().map(Ok)).flatten();
    /// let drawn = [it.next(), it.next(), it.next(), it.next(), it.next()];
    /// assert_eq!(drawn,
    ///     [Ok(Some(1)), Err(9), Ok(Some(2)), Ok(Some(3)), Ok(None)]
    /// );
    /// ```
    ///
    /// <details><summary>Contract</summary>
    ///
    /// As it is proved, in [these words](crate::words):
    ///
    /// ```text
    /// requires { contract.is_finite self }
    /// ensures source { flatten.flatten_source result ≡ self }
    /// ensures inner { flatten.flatten_inner result ≡ None }
    /// ensures lists { OverListWith
    ///     (flatten.EachLists Self.Item.into_gives Self.Item.IntoFallibleIter.contract.steps)
    ///     contract.steps self
    ///     (λ inner l. list.Lists (seen_as flatten.flatten_parts (flatten.flatten_contract contract
    ///     Self.Item.into_gives Self.Item.IntoFallibleIter.contract)).steps
    ///     result (flatten.flattened inner l)) }
    /// ```
    /// </details>
    fn flatten(self) -> Flatten<Self>
    where
        Self: Sized,
        Self::Item: IntoFallibleIterator<Error = Self::Error>,
    {
        Flatten {
            it: self,
            in_hand: None,
        }
    }

    /// Yields what the inner iterators yield that the closure returns for the items, as `flatten`.
    ///
    /// Laziness, draws, errors and behaviour after `Ok(None)`: as `flatten` of `map`.
    ///
    /// Precondition, which is not checked: the iterator is finite, as for `flatten`.
    ///
    /// ```
    /// # use fallible_iterator::{FallibleIterator, IteratorExt, convert};
    /// let bounds = [Ok(2), Ok(0), Ok(1)];
    /// let mut it = convert(bounds.into_iter()).flat_map(|bound: u32| Ok((0..bound).into_fallible()));
    /// let drawn = [it.next(), it.next(), it.next(), it.next()];
    /// assert_eq!(drawn, [Ok(Some(0)), Ok(Some(1)), Ok(Some(0)), Ok(None)]);
    /// ```
    ///
    /// <details><summary>Contract</summary>
    ///
    /// As it is proved, in [these words](crate::words):
    ///
    /// ```text
    /// requires finite { contract.is_finite self }
    /// requires callable { IsCallable (call_by_value F.FnMut) (takes_by_value F.FnMut)
    ///     (contract.may_give self) f }
    /// ensures source { flat_map.flat_map_source result ≡ self }
    /// ensures closure { flat_map.flat_map_closure result ≡ f }
    /// ensures inner { flat_map.flat_map_inner result ≡ None }
    /// ensures lists { (inner : U → List (Result U.Item Self.Error))
    ///     → flatten.EachLists U.into_gives U.IntoFallibleIter.contract.steps inner
    ///     → OverListWith (list.Acts (call_by_value F.FnMut) f) contract.steps self
    ///     (λ h l. list.Lists (seen_as flat_map.flat_map_parts
    ///     (flat_map.flat_map_contract contract F.FnMut
    ///     U.into_gives U.IntoFallibleIter.contract)).steps
    ///     result (flatten.flattened inner (mapped h l))) }
    /// ```
    /// </details>
    fn flat_map<U, F>(self, f: F) -> FlatMap<Self, U, F>
    where
        Self: Sized,
        U: IntoFallibleIterator<Error = Self::Error>,
        F: FnMut(Self::Item) -> Result<U, Self::Error>,
    {
        FlatMap {
            it: self.map(f),
            in_hand: None,
            made: PhantomData,
        }
    }

    /// Returns a collection of the items up to `Ok(None)`. In Rattle a set keeps the first of equal items, and a map the first of equal keys with its last value; so do the collections of `partition` and `unzip`. In Rust that is the collection's own rule.
    ///
    /// It draws up to `Ok(None)` or the first failure. It fails with that failure. It consumes the iterator.
    ///
    /// Precondition, which is not checked: the iterator is finite.
    ///
    /// ```
    /// # use fallible_iterator::{FallibleIterator, convert};
    /// let readings = [Ok::<u32, u8>(150), Ok(7), Ok(700)];
    /// let all: Vec<u32> = convert(readings.into_iter()).collect()?;
    /// assert_eq!(all, vec![150, 7, 700]);
    ///
    /// let cut = [Ok::<u32, u8>(150), Err(9), Ok(700)];
    /// let all: Result<Vec<u32>, u8> = convert(cut.into_iter()).collect();
    /// assert!(matches!(all, Err(9)));
    /// # Ok::<(), u8>(())
    /// ```
    ///
    /// <details><summary>Contract</summary>
    ///
    /// As it is proved, where its signature is another, in [these words](crate::words):
    ///
    /// ```text
    /// requires can_next { contract.can_next self }
    /// requires finite { contract.is_finite self }
    /// ensures collects { collecting.Collects contract.steps C.made C.empty_refuses C.push_refuses
    ///     self result }
    /// ensures value { OverList contract.steps self (λ l. list.CollectedAs C.made l result) }
    /// ensures contents { OverList contract.steps self
    ///     (λ l. IfOk result (list.MadeOf C.made (list.collected l))) }
    /// ensures failure { OverList contract.steps self
    ///     (λ l. (e : Self.Error) → result ≡ Err (Source e) → list.collected l ≡ Err e) }
    /// ```
    /// </details>
    fn collect<T>(self) -> Result<T, Self::Error>
    where
        Self: Sized,
        T: core::iter::FromIterator<Self::Item>,
    {
        self.iterator().collect()
    }

    /// Returns two collections of the items up to `Ok(None)`: of those for which the predicate returns true, and of the others. The predicate is called once on each item.
    ///
    /// Draws and errors: as `collect`. It consumes the iterator too. If the predicate fails, it stops and fails with that failure.
    ///
    /// Precondition, which is not checked: the iterator is finite.
    ///
    /// ```
    /// # use fallible_iterator::{FallibleIterator, convert};
    /// let readings = [Ok::<u32, u8>(150), Ok(7), Ok(700)];
    /// let (above, below): (Vec<u32>, Vec<u32>) = convert(readings.into_iter()).partition(|reading| Ok(*reading > 100),
    /// )?;
    /// assert_eq!(above, vec![150, 700]);
    /// assert_eq!(below, vec![7]);
    /// # Ok::<(), u8>(())
    /// ```
    ///
    /// <details><summary>Contract</summary>
    ///
    /// As it is proved, where its signature is another, in [these words](crate::words):
    ///
    /// ```text
    /// requires can_next { contract.can_next self }
    /// requires finite { contract.is_finite self }
    /// requires callable { fold.HoldsAtEachTurn contract.steps (collecting.Asks (call_by_reference F.FnMut))
    ///     (takes_by_reference F.FnMut) self f }
    /// ensures partitions { collecting.Partitions contract.steps (call_by_reference F.FnMut) B.made
    ///     B.empty_refuses B.push_refuses self f result }
    /// ensures value { OverListWith (list.Acts (call_by_reference F.FnMut) f) contract.steps self
    ///     (λ h l. list.PartitionedAs B.made h l result) }
    /// ensures contents { OverListWith (list.Acts (call_by_reference F.FnMut) f) contract.steps self
    ///     (λ h l. IfOk result (list.MadeOf (list.MadeOfSides B.made) (list.partitioned h l))) }
    /// ensures failure { OverListWith (list.Acts (call_by_reference F.FnMut) f) contract.steps self
    ///     (λ h l. (e : Self.Error) → result ≡ Err (Source e) → list.partitioned h l ≡ Err e) }
    /// ```
    /// </details>
    fn partition<B, F>(mut self, f: F) -> Result<(B, B), Self::Error>
    where
        Self: Sized,
        B: Default + Extend<Self::Item>,
        F: FnMut(&Self::Item) -> Result<bool, Self::Error>,
    {
        let mut state = (f, (Extended(B::default()), Extended(B::default())));
        let answer = self.drive(&mut state, &PartitionTurn);
        let (_, sides) = state;
        match answer {
            Ok(None) => Ok((sides.0.0, sides.1.0)),
            Ok(Some(Fault::Source(e))) => Err(e),
            Ok(Some(Fault::Memory(refused))) => match refused {},
            Err(e) => Err(e),
        }
    }

    /// Returns the first halves of the pairs up to `Ok(None)` in one collection, and the second halves in another.
    ///
    /// Draws, errors and precondition: as `collect`. It consumes the iterator too.
    ///
    /// ```
    /// # use fallible_iterator::{FallibleIterator, convert};
    /// let pairs = [Ok::<(u32, char), u8>((1, 'a')), Ok((2, 'b'))];
    /// let (numbers, letters): (Vec<u32>, Vec<char>) = convert(pairs.into_iter()).unzip()?;
    /// assert_eq!(numbers, vec![1, 2]);
    /// assert_eq!(letters, vec!['a', 'b']);
    /// # Ok::<(), u8>(())
    /// ```
    ///
    /// <details><summary>Contract</summary>
    ///
    /// As it is proved, where its signature is another, in [these words](crate::words):
    ///
    /// ```text
    /// requires can_next { contract.can_next self }
    /// requires finite { contract.is_finite self }
    /// ensures collects { collecting.Collects contract.steps
    ///     (collecting.MadeOfPairs FromA.made FromB.made)
    ///     (FromA.empty_refuses ⊎ FromB.empty_refuses)
    ///     (collecting.PairRefused FromA.made FromB.made FromA.push_refuses FromB.push_refuses)
    ///     self result }
    /// ensures value { OverList contract.steps self
    ///     (λ l. list.UnzippedAs FromA.made FromB.made l result) }
    /// ensures contents { OverList contract.steps self
    ///     (λ l. IfOk result (list.MadeOf (collecting.MadeOfPairs FromA.made FromB.made)
    ///     (list.collected l))) }
    /// ensures failure { OverList contract.steps self
    ///     (λ l. (e : Self.Error) → result ≡ Err (Source e) → list.collected l ≡ Err e) }
    /// ```
    /// </details>
    fn unzip<A, B, FromA, FromB>(mut self) -> Result<(FromA, FromB), Self::Error>
    where
        Self: Sized,
        Self: FallibleIterator<Item = (A, B)>,
        FromA: Default + Extend<A>,
        FromB: Default + Extend<B>,
    {
        let mut both = (Extended(FromA::default()), Extended(FromB::default()));
        match self.drive(&mut both, &UnzipTurn) {
            Ok(None) => Ok((both.0.0, both.1.0)),
            Ok(Some(refusal)) => match refusal {},
            Err(e) => Err(e),
        }
    }

    /// Calls the closure on each item in order, up to `Ok(None)`.
    ///
    /// Draws and errors: as `fold`. It consumes the iterator too.
    ///
    /// Precondition, which is not checked: the iterator is finite.
    ///
    /// ```
    /// # use fallible_iterator::{FallibleIterator, convert};
    /// let readings = [Ok::<u32, u8>(150), Err(9), Ok(700)];
    /// let mut sum = 0u32;
    /// let drained = convert(readings.into_iter()).for_each(|reading| {
    ///     sum = sum.wrapping_add(reading);
    ///     Ok(())
    /// });
    /// assert_eq!((drained, sum), (Err(9), 150));
    /// ```
    ///
    /// <details><summary>Contract</summary>
    ///
    /// As it is proved, in [these words](crate::words):
    ///
    /// ```text
    /// requires can_next { contract.can_next self }
    /// requires finite { contract.is_finite self }
    /// requires callable { search.CallableInSearch (call_by_value F.FnMut) search.for_each_pick
    ///     contract.steps (takes_by_value F.FnMut) self f }
    /// ensures searched { (left : Self) × (g : F)
    ///     × search.SearchDrains (call_by_value F.FnMut) search.for_each_pick contract.steps tt self f result
    ///     left g }
    /// ensures value { OverListWith (list.Acts (call_by_value F.FnMut) f) contract.steps self
    ///     (λ h l. result ≡ list.each_done h l) }
    /// ```
    /// </details>
    fn for_each<F>(mut self, f: F) -> Result<(), Self::Error>
    where
        Self: Sized,
        F: FnMut(Self::Item) -> Result<(), Self::Error>,
    {
        let mut f = f;
        answer_or(self.drive(&mut f, &ForEachTurn), ())
    }

    /// Returns whether the predicate returns true for each item up to `Ok(None)`.
    ///
    /// It draws up to the first item on which the predicate returns false or fails, the first failure or `Ok(None)`. It fails with the first failure, of this iterator or of the predicate. Nothing is drawn after that, and the iterator may be used again.
    ///
    /// Precondition, which is not checked: the iterator is finite.
    ///
    /// ```
    /// # use fallible_iterator::{FallibleIterator, convert};
    /// let mut it = convert([Ok::<u32, u8>(150), Ok(7), Err(9)].into_iter());
    /// assert_eq!(it.all(|reading| Ok(reading > 100)), Ok(false));
    /// assert_eq!(it.all(|reading| Ok(reading > 100)), Err(9));
    /// assert_eq!(it.all(|reading| Ok(reading > 100)), Ok(true));
    /// ```
    ///
    /// <details><summary>Contract</summary>
    ///
    /// As it is proved, in [these words](crate::words):
    ///
    /// ```text
    /// requires can_next { contract.can_next self.old }
    /// requires finite { contract.is_finite self.old }
    /// requires callable { search.CallableInSearch (call_by_value F.FnMut) search.all_pick contract.steps
    ///     (takes_by_value F.FnMut) self.old f }
    /// ensures searched { (g : F) × search.SearchDrains (call_by_value F.FnMut) search.all_pick
    ///     contract.steps true self.old f result self.new g }
    /// ensures value { OverListWith (list.Acts (call_by_value F.FnMut) f) contract.steps self.old
    ///     (λ h l. result ≡ list.all_of h l) }
    /// ensures rest { OverListWith (list.Acts (call_by_value F.FnMut) f) contract.steps self.old
    ///     (λ h l. ¬ (result ≡ Ok true)
    ///     → list.Lists contract.steps self.new (list.rest_false h l)) }
    /// ensures stays { Stays contract self.old self.new }
    /// ```
    /// </details>
    fn all<F>(&mut self, f: F) -> Result<bool, Self::Error>
    where
        Self: Sized,
        F: FnMut(Self::Item) -> Result<bool, Self::Error>,
    {
        let mut f = f;
        answer_or(self.drive(&mut f, &AllTurn), true)
    }

    /// Returns whether the predicate returns true for an item before `Ok(None)`.
    ///
    /// It draws up to the first item on which the predicate returns true or fails, the first failure or `Ok(None)`. Errors, precondition and what is left: as `all`.
    ///
    /// ```
    /// # use fallible_iterator::{FallibleIterator, convert};
    /// let mut it = convert([Ok::<u32, u8>(7), Ok(150), Err(9)].into_iter());
    /// assert_eq!(it.any(|reading| Ok(reading > 100)), Ok(true));
    /// assert_eq!(it.any(|reading| Ok(reading > 100)), Err(9));
    /// assert_eq!(it.any(|reading| Ok(reading > 100)), Ok(false));
    /// ```
    ///
    /// <details><summary>Contract</summary>
    ///
    /// As it is proved, in [these words](crate::words):
    ///
    /// ```text
    /// requires can_next { contract.can_next self.old }
    /// requires finite { contract.is_finite self.old }
    /// requires callable { search.CallableInSearch (call_by_value F.FnMut) search.any_pick contract.steps
    ///     (takes_by_value F.FnMut) self.old f }
    /// ensures searched { (g : F) × search.SearchDrains (call_by_value F.FnMut) search.any_pick
    ///     contract.steps false self.old f result self.new g }
    /// ensures value { OverListWith (list.Acts (call_by_value F.FnMut) f) contract.steps self.old
    ///     (λ h l. result ≡ list.any_of h l) }
    /// ensures rest { OverListWith (list.Acts (call_by_value F.FnMut) f) contract.steps self.old
    ///     (λ h l. ¬ (result ≡ Ok false)
    ///     → list.Lists contract.steps self.new (list.rest_true h l)) }
    /// ensures stays { Stays contract self.old self.new }
    /// ```
    /// </details>
    fn any<F>(&mut self, f: F) -> Result<bool, Self::Error>
    where
        Self: Sized,
        F: FnMut(Self::Item) -> Result<bool, Self::Error>,
    {
        let mut f = f;
        answer_or(self.drive(&mut f, &AnyTurn), false)
    }

    /// Returns the first item for which the predicate returns true; `Ok(None)` if there is none.
    ///
    /// It draws up to the first item on which the predicate returns true or fails, the first failure or `Ok(None)`. It calls the predicate on a reference to each item drawn, in order. Errors, precondition and what is left: as `all`.
    ///
    /// ```
    /// # use fallible_iterator::{FallibleIterator, convert};
    /// let mut it = convert([Ok::<u32, u8>(7), Ok(150), Ok(8), Err(9)].into_iter());
    /// assert_eq!(it.find(|reading| Ok(*reading > 100)), Ok(Some(150)));
    /// assert_eq!(it.find(|reading| Ok(*reading > 100)), Err(9));
    /// assert_eq!(it.find(|reading| Ok(*reading > 100)), Ok(None));
    /// ```
    ///
    /// <details><summary>Contract</summary>
    ///
    /// As it is proved, in [these words](crate::words):
    ///
    /// ```text
    /// requires can_next { contract.can_next self.old }
    /// requires finite { contract.is_finite self.old }
    /// requires callable { search.CallableInSearch (call_by_reference F.FnMut) search.find_pick
    ///     contract.steps (takes_by_reference F.FnMut) self.old f }
    /// ensures searched { (g : F) × search.SearchDrains (call_by_reference F.FnMut) search.find_pick
    ///     contract.steps None self.old f result self.new g }
    /// ensures value { OverListWith (list.Acts (call_by_reference F.FnMut) f) contract.steps self.old
    ///     (λ h l. result ≡ list.found h l) }
    /// ensures rest { OverListWith (list.Acts (call_by_reference F.FnMut) f) contract.steps self.old
    ///     (λ h l. ¬ (result ≡ Ok None)
    ///     → list.Lists contract.steps self.new (list.rest_true h l)) }
    /// ensures stays { Stays contract self.old self.new }
    /// ```
    /// </details>
    fn find<F>(&mut self, f: F) -> Result<Option<Self::Item>, Self::Error>
    where
        Self: Sized,
        F: FnMut(&Self::Item) -> Result<bool, Self::Error>,
    {
        let mut f = f;
        found(self.drive(&mut f, &FindTurn { test: &FindTest }))
    }

    /// Returns the first value that the closure returns for the items in order; `Ok(None)` if there is none. The closure is called once on each item drawn.
    ///
    /// It draws up to the first item on which the closure returns a value or fails, the first failure or `Ok(None)`. Errors, precondition and what is left: as `all`.
    ///
    /// ```
    /// # use fallible_iterator::{FallibleIterator, convert};
    /// let mut it = convert([Ok::<&str, u8>("none"), Ok("150"), Ok("700")].into_iter());
    /// let first = it.find_map(|word| Ok(word.parse::<u32>().ok()));
    /// assert_eq!(first, Ok(Some(150)));
    /// assert_eq!(it.next(), Ok(Some("700")));
    /// ```
    ///
    /// <details><summary>Contract</summary>
    ///
    /// As it is proved, in [these words](crate::words):
    ///
    /// ```text
    /// requires can_next { contract.can_next self.old }
    /// requires finite { contract.is_finite self.old }
    /// requires callable { search.CallableInSearch (call_by_value F.FnMut) search.find_map_pick
    ///     contract.steps (takes_by_value F.FnMut) self.old f }
    /// ensures searched { (g : F) × search.SearchDrains (call_by_value F.FnMut) search.find_map_pick
    ///     contract.steps None self.old f result self.new g }
    /// ensures value { OverListWith (list.Acts (call_by_value F.FnMut) f) contract.steps self.old
    ///     (λ h l. result ≡ list.find_mapped h l) }
    /// ensures rest { OverListWith (list.Acts (call_by_value F.FnMut) f) contract.steps self.old
    ///     (λ h l. ¬ (result ≡ Ok None)
    ///     → list.Lists contract.steps self.new (list.rest_value h l)) }
    /// ensures stays { Stays contract self.old self.new }
    /// ```
    /// </details>
    fn find_map<B, F>(&mut self, f: F) -> Result<Option<B>, Self::Error>
    where
        Self: Sized,
        F: FnMut(Self::Item) -> Result<Option<B>, Self::Error>,
    {
        let mut f = f;
        answer_or_none(self.drive(&mut f, &FindMapTurn))
    }

    /// Returns how many items come before the first one for which the predicate returns true; `Ok(None)` if there is none.
    ///
    /// It draws up to the first item on which the predicate returns true or fails, the first failure or `Ok(None)`. Errors and what is left: as `all`.
    ///
    /// Precondition, which is not checked: at most `usize::MAX` items are left.
    ///
    /// ```
    /// # use fallible_iterator::{FallibleIterator, convert};
    /// let mut it = convert([Ok::<u32, u8>(7), Ok(150), Ok(700)].into_iter());
    /// assert_eq!(it.position(|reading| Ok(reading > 100)), Ok(Some(1)));
    /// assert_eq!(it.position(|reading| Ok(reading > 100)), Ok(Some(0)));
    /// assert_eq!(it.position(|reading| Ok(reading > 100)), Ok(None));
    /// ```
    ///
    /// <details><summary>Contract</summary>
    ///
    /// As it is proved, in [these words](crate::words):
    ///
    /// ```text
    /// requires can_next { contract.can_next self.old }
    /// requires fits { AtMost contract self.old (2 ^ 64 - 1) }
    /// requires callable { search.CallableInSearch (call_by_value F.FnMut) search.position_pick
    ///     contract.steps (takes_by_value F.FnMut) self.old f }
    /// ensures searched { (g : F) × search.SearchDrains (call_by_value F.FnMut) search.position_pick
    ///     contract.steps None self.old f result self.new g }
    /// ensures value { OverListWith (list.Acts (call_by_value F.FnMut) f) contract.steps self.old
    ///     (λ h l. result ≡ list.position_in h l) }
    /// ensures rest { OverListWith (list.Acts (call_by_value F.FnMut) f) contract.steps self.old
    ///     (λ h l. ¬ (result ≡ Ok None)
    ///     → list.Lists contract.steps self.new (list.rest_true h l)) }
    /// ensures stays { Stays contract self.old self.new }
    /// ```
    /// </details>
    fn position<F>(&mut self, f: F) -> Result<Option<usize>, Self::Error>
    where
        Self: Sized,
        F: FnMut(Self::Item) -> Result<bool, Self::Error>,
    {
        answer_or_none(self.drive(&mut (0, f), &PositionTurn))
    }

    /// Returns the greatest item, of equal ones the last; `Ok(None)` if no item comes.
    ///
    /// Draws and errors: as `count`. It consumes the iterator too.
    ///
    /// Precondition, which is not checked: the iterator is finite.
    ///
    /// ```
    /// # use fallible_iterator::{FallibleIterator, convert};
    /// let readings = [Ok::<u32, u8>(150), Ok(700), Ok(7)];
    /// assert_eq!(convert(readings.into_iter()).max(), Ok(Some(700)));
    /// ```
    ///
    /// <details><summary>Contract</summary>
    ///
    /// As it is proved, in [these words](crate::words):
    ///
    /// ```text
    /// requires can_next { contract.can_next self }
    /// requires finite { contract.is_finite self }
    /// ensures best { pick.BestDrains Greater Self.Item.cmp contract.steps self result }
    /// ensures value { OverList contract.steps self (λ l. result ≡ list.greatest Self.Item.cmp l) }
    /// ```
    /// </details>
    fn max(self) -> Result<Option<Self::Item>, Self::Error>
    where
        Self: Sized,
        Self::Item: Ord,
    {
        let compare = |best: &Self::Item, x: &Self::Item| -> Result<Ordering, Self::Error> {
            Ok(best.cmp(x))
        };
        best_by(self, Ordering::Greater, compare)
    }

    /// Returns the least item, of equal ones the last; `Ok(None)` if no item comes. Draws, errors and precondition: as `max`.
    ///
    /// ```
    /// # use fallible_iterator::{FallibleIterator, convert};
    /// let readings = [Ok::<u32, u8>(150), Ok(7), Ok(700)];
    /// assert_eq!(convert(readings.into_iter()).min(), Ok(Some(7)));
    /// ```
    ///
    /// <details><summary>Contract</summary>
    ///
    /// As it is proved, in [these words](crate::words):
    ///
    /// ```text
    /// requires can_next { contract.can_next self }
    /// requires finite { contract.is_finite self }
    /// ensures best { pick.BestDrains Less Self.Item.cmp contract.steps self result }
    /// ensures value { OverList contract.steps self (λ l. result ≡ list.least Self.Item.cmp l) }
    /// ```
    /// </details>
    fn min(self) -> Result<Option<Self::Item>, Self::Error>
    where
        Self: Sized,
        Self::Item: Ord,
    {
        let compare = |best: &Self::Item, x: &Self::Item| -> Result<Ordering, Self::Error> {
            Ok(best.cmp(x))
        };
        best_by(self, Ordering::Less, compare)
    }

    /// Returns the item with the greatest key, of equal ones the last; `Ok(None)` if no item comes. The closure is called once on each item, in order, and returns its key.
    ///
    /// Draws and errors: as `fold`. It consumes the iterator too.
    ///
    /// Precondition, which is not checked: the iterator is finite.
    ///
    /// ```
    /// # use fallible_iterator::{FallibleIterator, convert};
    /// let words = [Ok::<&str, u8>("to"), Ok("the"), Ok("sea")];
    /// assert_eq!(convert(words.into_iter()).max_by_key(|word| Ok(word.len())),
    ///     Ok(Some("sea"))
    /// );
    /// ```
    ///
    /// <details><summary>Contract</summary>
    ///
    /// As it is proved, in [these words](crate::words):
    ///
    /// ```text
    /// requires can_next { contract.can_next self }
    /// requires finite { contract.is_finite self }
    /// requires callable { fold.CallableInFold contract.steps
    ///     (pick.KeyCall Greater B.cmp (call_by_reference F.FnMut))
    ///     (λ g best x. takes_by_reference F.FnMut g x) self f None }
    /// ensures best { pick.BestByKeyDrains Greater B.cmp (call_by_reference F.FnMut) contract.steps self f
    ///     result }
    /// ensures value { OverListWith (list.Acts (call_by_reference F.FnMut) f) contract.steps self
    ///     (λ h l. result ≡ list.best_by_key Greater B.cmp h l) }
    /// ```
    /// </details>
    fn max_by_key<B, F>(self, f: F) -> Result<Option<Self::Item>, Self::Error>
    where
        Self: Sized,
        B: Ord,
        F: FnMut(&Self::Item) -> Result<B, Self::Error>,
    {
        without_key(best_by_key(self, Ordering::Greater, f))
    }

    /// Returns the item with the least key, of equal ones the last; `Ok(None)` if no item comes. Draws, errors and precondition: as `max_by_key`.
    ///
    /// ```
    /// # use fallible_iterator::{FallibleIterator, convert};
    /// let words = [Ok::<&str, u8>("the"), Ok("to"), Ok("at")];
    /// assert_eq!(convert(words.into_iter()).min_by_key(|word| Ok(word.len())),
    ///     Ok(Some("at"))
    /// );
    /// ```
    ///
    /// <details><summary>Contract</summary>
    ///
    /// As it is proved, in [these words](crate::words):
    ///
    /// ```text
    /// requires can_next { contract.can_next self }
    /// requires finite { contract.is_finite self }
    /// requires callable { fold.CallableInFold contract.steps
    ///     (pick.KeyCall Less B.cmp (call_by_reference F.FnMut))
    ///     (λ g best x. takes_by_reference F.FnMut g x) self f None }
    /// ensures best { pick.BestByKeyDrains Less B.cmp (call_by_reference F.FnMut) contract.steps self f
    ///     result }
    /// ensures value { OverListWith (list.Acts (call_by_reference F.FnMut) f) contract.steps self
    ///     (λ h l. result ≡ list.best_by_key Less B.cmp h l) }
    /// ```
    /// </details>
    fn min_by_key<B, F>(self, f: F) -> Result<Option<Self::Item>, Self::Error>
    where
        Self: Sized,
        B: Ord,
        F: FnMut(&Self::Item) -> Result<B, Self::Error>,
    {
        without_key(best_by_key(self, Ordering::Less, f))
    }

    /// Returns the greatest item by the closure, of equal ones the last; `Ok(None)` if no item comes. The closure is called on the best item so far and the next one.
    ///
    /// Draws and errors: as `fold`. It consumes the iterator too.
    ///
    /// Precondition, which is not checked: the iterator is finite.
    ///
    /// ```
    /// # use fallible_iterator::{FallibleIterator, convert};
    /// let pairs = [Ok::<(u32, char), u8>((1, 'a')), Ok((3, 'b')), Ok((3, 'c'))];
    /// let greatest = convert(pairs.into_iter()).max_by(|best, pair| Ok(best.0.cmp(&pair.0)));
    /// assert_eq!(greatest, Ok(Some((3, 'c'))));
    /// ```
    ///
    /// <details><summary>Contract</summary>
    ///
    /// As it is proved, in [these words](crate::words):
    ///
    /// ```text
    /// requires can_next { contract.can_next self }
    /// requires finite { contract.is_finite self }
    /// requires callable { fold.CallableInFold contract.steps
    ///     (pick.PickCall Greater (pick.call_at_two F.FnMut))
    ///     (pick.takes_in_pick (pick.takes_at_two F.FnMut)) self f None }
    /// ensures picked { pick.PickDrains Greater (pick.call_at_two F.FnMut) contract.steps self f
    ///     result }
    /// ensures value { OverListWith (list.ActsWith (pick.call_at_two F.FnMut) f) contract.steps
    ///     self (λ h l. result ≡ list.best_by Greater h l) }
    /// ```
    /// </details>
    fn max_by<F>(self, f: F) -> Result<Option<Self::Item>, Self::Error>
    where
        Self: Sized,
        F: FnMut(&Self::Item, &Self::Item) -> Result<Ordering, Self::Error>,
    {
        best_by(self, Ordering::Greater, f)
    }

    /// Returns the least item by the closure, of equal ones the last; `Ok(None)` if no item comes. Draws, errors and precondition: as `max_by`.
    ///
    /// ```
    /// # use fallible_iterator::{FallibleIterator, convert};
    /// let pairs = [Ok::<(u32, char), u8>((3, 'a')), Ok((1, 'b')), Ok((1, 'c'))];
    /// let least = convert(pairs.into_iter()).min_by(|best, pair| Ok(best.0.cmp(&pair.0)));
    /// assert_eq!(least, Ok(Some((1, 'c'))));
    /// ```
    ///
    /// <details><summary>Contract</summary>
    ///
    /// As it is proved, in [these words](crate::words):
    ///
    /// ```text
    /// requires can_next { contract.can_next self }
    /// requires finite { contract.is_finite self }
    /// requires callable { fold.CallableInFold contract.steps
    ///     (pick.PickCall Less (pick.call_at_two F.FnMut))
    ///     (pick.takes_in_pick (pick.takes_at_two F.FnMut)) self f None }
    /// ensures picked { pick.PickDrains Less (pick.call_at_two F.FnMut) contract.steps self f
    ///     result }
    /// ensures value { OverListWith (list.ActsWith (pick.call_at_two F.FnMut) f) contract.steps
    ///     self (λ h l. result ≡ list.best_by Less h l) }
    /// ```
    /// </details>
    fn min_by<F>(self, f: F) -> Result<Option<Self::Item>, Self::Error>
    where
        Self: Sized,
        F: FnMut(&Self::Item, &Self::Item) -> Result<Ordering, Self::Error>,
    {
        best_by(self, Ordering::Less, f)
    }

    /// Compares two iterators by the order of their items. The first two that aren't equal decide. If there are none, the side that ends alone is less.
    ///
    /// It draws in rounds, this iterator and then the other, until a failure, an `Ok(None)` or two items that decide. If this one returned `Ok(None)`, the other is still drawn in that round; if this one failed, it is not. It fails with the first failure: in each round one of this iterator comes before one of the other. It consumes both.
    ///
    /// Precondition, which is not checked: one of the two is finite.
    ///
    /// ```
    /// # use fallible_iterator::{FallibleIterator, convert};
    /// # use std::cmp::Ordering;
    /// let left = convert([Ok::<u32, u8>(1), Ok(2), Err(9)].into_iter());
    /// let right = convert([Ok(1), Ok(3)].into_iter());
    /// assert_eq!(left.cmp(right), Ok(Ordering::Less));
    /// ```
    ///
    /// <details><summary>Contract</summary>
    ///
    /// As it is proved, in [these words](crate::words):
    ///
    /// ```text
    /// requires can_next { contract.can_next self }
    /// requires right { (right : I.IntoFallibleIter) → I.into_gives other right
    ///     → I.IntoFallibleIter.contract.can_next right }
    /// requires finite { comparing.OneIsFinite contract I.into_gives I.IntoFallibleIter.contract
    ///     self other }
    /// ensures compared { comparing.ComparedWith (comparing.by_cmp Self.Item.cmp) I.into_gives
    ///     contract.steps
    ///     I.IntoFallibleIter.contract.steps self other (comparing.read_as (λ o. Some o) result) }
    /// ensures value { OverBoth contract.steps self I.into_gives other
    ///     I.IntoFallibleIter.contract.steps
    ///     (λ a b. comparing.read_as (λ o. Some o) result ≡ list.compared
    ///     (comparing.by_cmp Self.Item.cmp) a b) }
    /// ```
    /// </details>
    fn cmp<I>(self, other: I) -> Result<Ordering, Self::Error>
    where
        Self: Sized,
        I: IntoFallibleIterator<Item = Self::Item, Error = Self::Error>,
        Self::Item: Ord,
    {
        let answer = compare::<Self, I::IntoFallibleIter, ByCmp>(self, other.into_fallible_iter());
        ordered(answer)
    }

    /// Compares two iterators by the partial order of their items. The first two that aren't equal decide; if they can't be compared, it returns `Ok(None)`. If there are none, the side that ends alone is less.
    ///
    /// Draws, errors and precondition: as `cmp`.
    ///
    /// ```
    /// # use fallible_iterator::{FallibleIterator, convert};
    /// let left = convert([Ok::<f64, u8>(1.0), Ok(f64::NAN)].into_iter());
    /// let right = convert([Ok(1.0), Ok(2.0)].into_iter());
    /// assert_eq!(left.partial_cmp(right), Ok(None));
    /// ```
    ///
    /// <details><summary>Contract</summary>
    ///
    /// As it is proved, in [these words](crate::words):
    ///
    /// ```text
    /// requires can_next { contract.can_next self }
    /// requires right { (right : I.IntoFallibleIter) → I.into_gives other right
    ///     → I.IntoFallibleIter.contract.can_next right }
    /// requires finite { comparing.OneIsFinite contract I.into_gives I.IntoFallibleIter.contract
    ///     self other }
    /// ensures compared { comparing.ComparedWith Self.Item.partial_cmp I.into_gives contract.steps
    ///     I.IntoFallibleIter.contract.steps self other result }
    /// ensures value { OverBoth contract.steps self I.into_gives other
    ///     I.IntoFallibleIter.contract.steps
    ///     (λ a b. result ≡ list.compared Self.Item.partial_cmp a b) }
    /// ```
    /// </details>
    fn partial_cmp<I>(self, other: I) -> Result<Option<Ordering>, Self::Error>
    where
        Self: Sized,
        I: IntoFallibleIterator<Error = Self::Error>,
        Self::Item: PartialOrd<I::Item>,
    {
        compare::<Self, I::IntoFallibleIter, ByPartialCmp>(self, other.into_fallible_iter())
    }

    /// Returns whether the two yield equal items, one by one, and end together.
    ///
    /// Draws, errors and precondition: as `cmp`.
    ///
    /// ```
    /// # use fallible_iterator::{FallibleIterator, convert};
    /// let left = convert([Ok::<u32, u8>(1), Ok(2)].into_iter());
    /// let right = convert([Ok(1), Err(9)].into_iter());
    /// assert_eq!(left.eq(right), Err(9));
    /// ```
    ///
    /// <details><summary>Contract</summary>
    ///
    /// As it is proved, in [these words](crate::words):
    ///
    /// ```text
    /// requires can_next { contract.can_next self }
    /// requires right { (right : I.IntoFallibleIter) → I.into_gives other right
    ///     → I.IntoFallibleIter.contract.can_next right }
    /// requires finite { comparing.OneIsFinite contract I.into_gives I.IntoFallibleIter.contract
    ///     self other }
    /// ensures compared { comparing.ReadWith (comparing.by_eq Self.Item.eq) comparing.reads_eq
    ///     I.into_gives contract.steps I.IntoFallibleIter.contract.steps self other result }
    /// ensures value { OverBoth contract.steps self I.into_gives other
    ///     I.IntoFallibleIter.contract.steps
    ///     (λ a b. result ≡ comparing.read_as comparing.reads_eq
    ///     (list.compared (comparing.by_eq Self.Item.eq) a b)) }
    /// ```
    /// </details>
    fn eq<I>(self, other: I) -> Result<bool, Self::Error>
    where
        Self: Sized,
        I: IntoFallibleIterator<Error = Self::Error>,
        Self::Item: PartialEq<I::Item>,
    {
        compare_read::<Self, I, ByEq, ReadEq>(self, other)
    }

    /// Returns whether the two differ: the opposite of `eq`.
    ///
    /// Draws, errors and precondition: as `cmp`.
    ///
    /// ```
    /// # use fallible_iterator::{FallibleIterator, convert};
    /// let left = convert([Ok::<u32, u8>(1), Ok(2)].into_iter());
    /// let right = convert([Ok(1)].into_iter());
    /// assert_eq!(left.ne(right), Ok(true));
    /// ```
    ///
    /// <details><summary>Contract</summary>
    ///
    /// As it is proved, in [these words](crate::words):
    ///
    /// ```text
    /// requires can_next { contract.can_next self }
    /// requires right { (right : I.IntoFallibleIter) → I.into_gives other right
    ///     → I.IntoFallibleIter.contract.can_next right }
    /// requires finite { comparing.OneIsFinite contract I.into_gives I.IntoFallibleIter.contract
    ///     self other }
    /// ensures compared { comparing.ReadWith (comparing.by_eq Self.Item.eq) comparing.reads_ne
    ///     I.into_gives contract.steps I.IntoFallibleIter.contract.steps self other result }
    /// ensures value { OverBoth contract.steps self I.into_gives other
    ///     I.IntoFallibleIter.contract.steps
    ///     (λ a b. result ≡ comparing.read_as comparing.reads_ne
    ///     (list.compared (comparing.by_eq Self.Item.eq) a b)) }
    /// ```
    /// </details>
    fn ne<I>(self, other: I) -> Result<bool, Self::Error>
    where
        Self: Sized,
        I: IntoFallibleIterator<Error = Self::Error>,
        Self::Item: PartialEq<I::Item>,
    {
        compare_read::<Self, I, ByEq, ReadNe>(self, other)
    }

    /// Returns whether this one is less than the other, by `partial_cmp`; false if two items can't be compared.
    ///
    /// Draws, errors and precondition: as `cmp`.
    ///
    /// ```
    /// # use fallible_iterator::{FallibleIterator, convert};
    /// let left = convert([Ok::<u32, u8>(1)].into_iter());
    /// let right = convert([Ok(1), Ok(0)].into_iter());
    /// assert_eq!(left.lt(right), Ok(true));
    /// ```
    ///
    /// <details><summary>Contract</summary>
    ///
    /// As it is proved, in [these words](crate::words):
    ///
    /// ```text
    /// requires can_next { contract.can_next self }
    /// requires right { (right : I.IntoFallibleIter) → I.into_gives other right
    ///     → I.IntoFallibleIter.contract.can_next right }
    /// requires finite { comparing.OneIsFinite contract I.into_gives I.IntoFallibleIter.contract
    ///     self other }
    /// ensures compared { comparing.ReadWith Self.Item.partial_cmp comparing.reads_lt I.into_gives
    ///     contract.steps I.IntoFallibleIter.contract.steps self other result }
    /// ensures value { OverBoth contract.steps self I.into_gives other
    ///     I.IntoFallibleIter.contract.steps
    ///     (λ a b. result ≡ comparing.read_as comparing.reads_lt
    ///     (list.compared Self.Item.partial_cmp a b)) }
    /// ```
    /// </details>
    fn lt<I>(self, other: I) -> Result<bool, Self::Error>
    where
        Self: Sized,
        I: IntoFallibleIterator<Error = Self::Error>,
        Self::Item: PartialOrd<I::Item>,
    {
        compare_read::<Self, I, ByPartialCmp, ReadLt>(self, other)
    }

    /// Returns whether this one is less than the other or equal, by `partial_cmp`; false if two items can't be compared.
    ///
    /// Draws, errors and precondition: as `cmp`.
    ///
    /// ```
    /// # use fallible_iterator::{FallibleIterator, convert};
    /// let left = convert([Ok::<u32, u8>(1), Ok(2)].into_iter());
    /// let right = convert([Ok(1), Ok(2)].into_iter());
    /// assert_eq!(left.le(right), Ok(true));
    /// ```
    ///
    /// <details><summary>Contract</summary>
    ///
    /// As it is proved, in [these words](crate::words):
    ///
    /// ```text
    /// requires can_next { contract.can_next self }
    /// requires right { (right : I.IntoFallibleIter) → I.into_gives other right
    ///     → I.IntoFallibleIter.contract.can_next right }
    /// requires finite { comparing.OneIsFinite contract I.into_gives I.IntoFallibleIter.contract
    ///     self other }
    /// ensures compared { comparing.ReadWith Self.Item.partial_cmp comparing.reads_le I.into_gives
    ///     contract.steps I.IntoFallibleIter.contract.steps self other result }
    /// ensures value { OverBoth contract.steps self I.into_gives other
    ///     I.IntoFallibleIter.contract.steps
    ///     (λ a b. result ≡ comparing.read_as comparing.reads_le
    ///     (list.compared Self.Item.partial_cmp a b)) }
    /// ```
    /// </details>
    fn le<I>(self, other: I) -> Result<bool, Self::Error>
    where
        Self: Sized,
        I: IntoFallibleIterator<Error = Self::Error>,
        Self::Item: PartialOrd<I::Item>,
    {
        compare_read::<Self, I, ByPartialCmp, ReadLe>(self, other)
    }

    /// Returns whether this one is greater than the other, by `partial_cmp`; false if two items can't be compared.
    ///
    /// Draws, errors and precondition: as `cmp`.
    ///
    /// ```
    /// # use fallible_iterator::{FallibleIterator, convert};
    /// let left = convert([Ok::<u32, u8>(2), Err(9)].into_iter());
    /// let right = convert([Ok(1)].into_iter());
    /// assert_eq!(left.gt(right), Ok(true));
    /// ```
    ///
    /// <details><summary>Contract</summary>
    ///
    /// As it is proved, in [these words](crate::words):
    ///
    /// ```text
    /// requires can_next { contract.can_next self }
    /// requires right { (right : I.IntoFallibleIter) → I.into_gives other right
    ///     → I.IntoFallibleIter.contract.can_next right }
    /// requires finite { comparing.OneIsFinite contract I.into_gives I.IntoFallibleIter.contract
    ///     self other }
    /// ensures compared { comparing.ReadWith Self.Item.partial_cmp comparing.reads_gt I.into_gives
    ///     contract.steps I.IntoFallibleIter.contract.steps self other result }
    /// ensures value { OverBoth contract.steps self I.into_gives other
    ///     I.IntoFallibleIter.contract.steps
    ///     (λ a b. result ≡ comparing.read_as comparing.reads_gt
    ///     (list.compared Self.Item.partial_cmp a b)) }
    /// ```
    /// </details>
    fn gt<I>(self, other: I) -> Result<bool, Self::Error>
    where
        Self: Sized,
        I: IntoFallibleIterator<Error = Self::Error>,
        Self::Item: PartialOrd<I::Item>,
    {
        compare_read::<Self, I, ByPartialCmp, ReadGt>(self, other)
    }

    /// Returns whether this one is greater than the other or equal, by `partial_cmp`; false if two items can't be compared.
    ///
    /// Draws, errors and precondition: as `cmp`.
    ///
    /// ```
    /// # use fallible_iterator::{FallibleIterator, convert};
    /// let left = convert([Ok::<u32, u8>(1)].into_iter());
    /// let right = convert([Ok(1), Ok(0)].into_iter());
    /// assert_eq!(left.ge(right), Ok(false));
    /// ```
    ///
    /// <details><summary>Contract</summary>
    ///
    /// As it is proved, in [these words](crate::words):
    ///
    /// ```text
    /// requires can_next { contract.can_next self }
    /// requires right { (right : I.IntoFallibleIter) → I.into_gives other right
    ///     → I.IntoFallibleIter.contract.can_next right }
    /// requires finite { comparing.OneIsFinite contract I.into_gives I.IntoFallibleIter.contract
    ///     self other }
    /// ensures compared { comparing.ReadWith Self.Item.partial_cmp comparing.reads_ge I.into_gives
    ///     contract.steps I.IntoFallibleIter.contract.steps self other result }
    /// ensures value { OverBoth contract.steps self I.into_gives other
    ///     I.IntoFallibleIter.contract.steps
    ///     (λ a b. result ≡ comparing.read_as comparing.reads_ge
    ///     (list.compared Self.Item.partial_cmp a b)) }
    /// ```
    /// </details>
    fn ge<I>(self, other: I) -> Result<bool, Self::Error>
    where
        Self: Sized,
        I: IntoFallibleIterator<Error = Self::Error>,
        Self::Item: PartialOrd<I::Item>,
    {
        compare_read::<Self, I, ByPartialCmp, ReadGe>(self, other)
    }

    /// Lets `peek` look at what comes next. What `peek` saw, an item or an `Ok(None)`, is buffered, and comes first.
    ///
    /// Creating it draws nothing, and buffers nothing. `next` draws once, and nothing if something is buffered. It fails as the source does. Behaviour after a failure and after `Ok(None)`: as `map`.
    ///
    /// ```
    /// # use fallible_iterator::{FallibleIterator, convert};
    /// let mut it = convert([Ok::<u32, u8>(150), Ok(7)].into_iter()).peekable();
    /// assert_eq!(it.peek(), Ok(Some(&150)));
    /// assert_eq!(it.next(), Ok(Some(150)));
    /// assert_eq!(it.next(), Ok(Some(7)));
    /// ```
    ///
    /// <details><summary>Contract</summary>
    ///
    /// As it is proved, in [these words](crate::words):
    ///
    /// ```text
    /// ensures parts { peekable_parts result ≡ (self, None) }
    /// ensures lists { OverList contract.steps self
    ///     (λ l. list.Lists (parts_as peekable_parts (peekable_contract contract)).steps result l) }
    /// ```
    /// </details>
    fn peekable(self) -> Peekable<Self>
    where
        Self: Sized,
    {
        Peekable {
            it: self,
            held: None,
        }
    }

    /// Starts anew at each `Ok(None)`, with a clone of this iterator, which is kept.
    ///
    /// Creating it makes one clone, for the first run, and draws nothing. `next` draws once, and at a run's `Ok(None)` once more, from a fresh clone.
    ///
    /// `next` fails as the run does, and the run goes on after that. It may have no end, and is drained through `take`.
    ///
    /// ```
    /// # use fallible_iterator::{FallibleIterator, convert};
    /// let readings = convert([Ok::<u32, u8>(150), Ok(7)].into_iter());
    /// let mut it = readings.cycle();
    /// let drawn = [it.next(), it.next(), it.next()];
    /// assert_eq!(drawn, [Ok(Some(150)), Ok(Some(7)), Ok(Some(150))]);
    /// ```
    ///
    /// <details><summary>Contract</summary>
    ///
    /// As it is proved, where its signature is another, in [these words](crate::words):
    ///
    /// ```text
    /// requires { (c : Self) → Self.is_clone self c → contract.can_next c }
    /// ensures { MatchResult result
    ///     (λ made. Self.is_clone self (cycle_source made) × (cycle_kept made ≡ self))
    ///     (λ _. ¬ (Self.is_infallible self)) }
    /// ```
    /// </details>
    fn cycle(self) -> Cycle<Self>
    where
        Self: Sized,
        Self: Clone,
    {
        Cycle {
            it: self.clone(),
            kept: self,
        }
    }

    /// Returns what `next` returns. Over a list it is the first.
    ///
    /// It is one draw, and fails as `next` does. `next` may be called again. Over a list it leaves the rest.
    ///
    /// ```
    /// # use fallible_iterator::{FallibleIterator, convert};
    /// let mut it = convert([Ok::<u32, u8>(150), Err(9)].into_iter());
    /// let drawn = [it.draw(), it.draw(), it.draw()];
    /// assert_eq!(drawn, [Ok(Some(150)), Err(9), Ok(None)]);
    /// ```
    ///
    /// <details><summary>Contract</summary>
    ///
    /// As it is proved, in [these words](crate::words):
    ///
    /// ```text
    /// requires { contract.can_next self.old }
    /// ensures drawn { contract.steps self.old result self.new }
    /// ensures value { OverList contract.steps self.old (λ l. result ≡ list.nth_of 0 l) }
    /// ensures rest { OverList contract.steps self.old
    ///     (λ l. ¬ (result ≡ Ok None) → list.Lists contract.steps self.new (list.rest_first l)) }
    /// ensures stays { Stays contract self.old self.new }
    /// ```
    /// </details>
    #[doc(hidden)]
    fn draw(&mut self) -> Result<Option<Self::Item>, Self::Error>
    where
        Self: Sized,
    {
        Self::next(self)
    }

    /// Borrows the iterator: what is drawn from the borrow is drawn from it.
    ///
    /// Creating it draws nothing and never fails. `next` of the borrow returns and fails as that of the iterator does.
    ///
    /// ```
    /// # use fallible_iterator::{FallibleIterator, convert};
    /// let mut it = convert([Ok::<u32, u8>(150), Ok(7), Ok(700)].into_iter());
    /// assert_eq!(it.by_ref().take(2).count(), Ok(2));
    /// assert_eq!(it.next(), Ok(Some(700)));
    /// ```
    ///
    /// <details><summary>Contract</summary>
    ///
    /// As it is proved, in [these words](crate::words):
    ///
    /// ```text
    /// ensures value { result.now ≡ self.old }
    /// ensures same_reference { result.ghost_name ≡ self.entry.ghost_name }
    /// ensures lists { OverList contract.steps self.old
    ///     (λ l. list.Lists (borrowed contract).steps result l) }
    /// ```
    /// </details>
    fn by_ref(&mut self) -> &mut Self
    where
        Self: Sized,
    {
        self
    }

    /// Returns a std iterator: each item is an `Ok`, each failure an `Err`, and `Ok(None)` is `None`.
    ///
    /// Creating it draws nothing. Its `next` draws once, and never fails. After a `None` it draws again.
    ///
    /// ```
    /// # use fallible_iterator::{FallibleIterator, convert};
    /// let readings = [Ok::<u32, u8>(150), Err(9), Ok(700)];
    /// let mut failures = 0u32;
    /// for reading in convert(readings.into_iter()).iterator() {
    ///     if reading.is_err() {
    ///         failures = failures.wrapping_add(1);
    ///     }
    /// }
    /// assert_eq!(failures, 1);
    /// ```
    ///
    /// <details><summary>Contract</summary>
    ///
    /// As it is proved, in [these words](crate::words):
    ///
    /// ```text
    /// ensures parts { iterator_parts result ≡ self }
    /// ensures reads { OverList contract.steps self
    ///     (λ l. EachRunFrom (iterator_steps contract.steps) result (λ p. ItemsAre p l)) }
    /// ```
    /// </details>
    fn iterator(self) -> Iterator<Self>
    where
        Self: Sized,
    {
        Iterator { it: self }
    }

    /// Returns a std iterator over the items.
    ///
    /// Laziness and draws: as `iterator`.
    ///
    /// In Rust it panics at a failure.
    ///
    /// ```
    /// # use fallible_iterator::{FallibleIterator, IteratorExt};
    /// let readings = [150u32, 7].into_iter().into_fallible();
    /// let mut sum = 0u32;
    /// for reading in readings.unwrap() {
    ///     sum = sum.wrapping_add(reading);
    /// }
    /// assert_eq!(sum, 157);
    /// ```
    ///
    /// <details><summary>Contract</summary>
    ///
    /// As it is proved, in [these words](crate::words):
    ///
    /// ```text
    /// requires sure { NeverFails contract self }
    /// ensures parts { unwrap_parts result ≡ self }
    /// ensures reads { OverList contract.steps self
    ///     (λ l. EachRunFrom (unwrap_steps contract.steps) result
    ///     (λ p. ItemsAre p (unwrapped l))) }
    /// ```
    /// </details>
    fn unwrap<T>(self) -> Unwrap<Self>
    where
        Self: Sized,
        Self: FallibleIterator<Item = T>,
        Self::Error: Debug,
    {
        Unwrap { it: self }
    }
}

/// Why a fold stopped that a caller's own type may have written: a turn stopped it, or it failed.
#[doc(hidden)]
pub enum Stop<R, E> {
    Turn(R),
    Failure(E),
}

impl<R, E> From<E> for Stop<R, E> {
    #[inline(always)]
    fn from(e: E) -> Stop<R, E> {
        Stop::Failure(e)
    }
}
