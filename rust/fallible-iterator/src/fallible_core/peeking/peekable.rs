// The adapter that looks ahead.

use crate::fallible_contract::folds::Turn;
use crate::fallible_contract::hints::one_more;
use crate::fallible_core::traits::FallibleIterator;
use crate::fallible_core::traits::double_ended::DoubleEndedFallibleIterator;
use core::ops::ControlFlow;

/// What the source yields; the next item can be looked at ahead. An item or an `Ok(None)` that was looked at is buffered, and comes first; a failure isn't buffered.
#[derive(Clone, Debug)]
#[must_use = "an iterator draws nothing until it is asked"]
pub struct Peekable<I: FallibleIterator> {
    pub(crate) it: I,
    // what was looked at, an item or an `Ok(None)`, and wasn't returned yet
    pub(crate) held: Option<Option<I::Item>>,
}

impl<I: FallibleIterator> FallibleIterator for Peekable<I> {
    type Item = I::Item;

    type Error = I::Error;

    /// Returns what is buffered without a draw, and draws once if nothing is.
    fn next(&mut self) -> Result<Option<I::Item>, I::Error> {
        match self.held.take() {
            Some(answer) => Ok(answer),
            None => self.it.next(),
        }
    }

    fn size_hint(&self) -> (usize, Option<usize>) {
        match &self.held {
            Some(Some(_)) => one_more(self.it.size_hint()),
            Some(None) => (0, Some(0)),
            None => self.it.size_hint(),
        }
    }

    /// The turn on a buffered item, and then the source's fold; a buffered `Ok(None)` ends the fold without a draw.
    #[inline(always)]
    fn drive<C, R, K: Turn<C, I::Item, R>>(
        &mut self,
        state: &mut C,
        turn: &K,
    ) -> Result<Option<R>, I::Error> {
        match self.held.take() {
            Some(Some(x)) => match turn.turn(state, x) {
                ControlFlow::Continue(()) => self.it.drive(state, turn),
                ControlFlow::Break(stop) => Ok(Some(stop)),
            },
            Some(None) => Ok(None),
            None => self.it.drive(state, turn),
        }
    }

    crate::by_drive!(drive);
}

impl<I: DoubleEndedFallibleIterator> DoubleEndedFallibleIterator for Peekable<I> {
    /// Draws the source once from the back, and at its end there returns the buffered item, in whose place an `Ok(None)` is buffered. A buffered `Ok(None)` is returned without a draw, and stays buffered.
    ///
    /// ```
    /// # use fallible_iterator::{DoubleEndedFallibleIterator, FallibleIterator, convert};
    /// let mut it = convert([Ok::<u32, u8>(150), Ok(7)].into_iter()).peekable();
    /// assert_eq!(it.peek(), Ok(Some(&150)));
    /// assert_eq!(it.next_back(), Ok(Some(7)));
    /// assert_eq!(it.next_back(), Ok(Some(150)));
    /// assert_eq!(it.next_back(), Ok(None));
    /// ```
    fn next_back(&mut self) -> Result<Option<I::Item>, I::Error> {
        if let Some(None) = &self.held {
            return Ok(None);
        }
        match self.it.next_back() {
            Ok(Some(x)) => Ok(Some(x)),
            Ok(None) => match self.held.take() {
                Some(answer) => {
                    self.held = Some(None);
                    Ok(answer)
                }
                None => Ok(None),
            },
            Err(e) => Err(e),
        }
    }
}

impl<I: FallibleIterator> Peekable<I> {
    /// Returns the next item, if the closure returns true for it, and otherwise `Ok(None)`. At an `Ok(None)` the closure isn't called.
    ///
    /// It draws once if nothing is buffered, and otherwise nothing. It fails as the source does; a failure isn't buffered. An item that is rejected stays buffered, and so does an `Ok(None)`. The iterator may be used again.
    ///
    /// ```
    /// # use fallible_iterator::{FallibleIterator, convert};
    /// let mut it = convert([Ok::<u32, u8>(150), Ok(7)].into_iter()).peekable();
    /// assert_eq!(it.next_if(|reading| *reading > 100), Ok(Some(150)));
    /// assert_eq!(it.next_if(|reading| *reading > 100), Ok(None));
    /// assert_eq!(it.next(), Ok(Some(7)));
    /// ```
    ///
    /// <details><summary>Contract</summary>
    ///
    /// As it is proved, in [these words](crate::words):
    ///
    /// ```text
    /// requires can_next { (peekable_contract I.contract).can_next (peekable_parts self.old) }
    /// requires callable { IsTestable F.Fn f
    ///     ((peekable_contract I.contract).may_give (peekable_parts self.old)) }
    /// ensures taken { NextIf I.contract.steps (TestedBy F.Fn f)
    ///     (peekable_parts self.old) result (peekable_parts self.new) }
    /// ensures lists { OverListWith (LooksAs F.Fn f)
    ///     (parts_as peekable_parts (peekable_contract I.contract)).steps self.old
    ///     (λ h l. (result ≡ first_if h l)
    ///     × Lists (parts_as peekable_parts (peekable_contract I.contract)).steps
    ///     self.new (rest_if h l)) }
    /// ensures stays { Stays (peekable_contract I.contract)
    ///     (peekable_parts self.old) (peekable_parts self.new) }
    /// ensures fewer { (x : I.Item) → result ≡ Ok (Some x)
    ///     → Fewer (peekable_contract I.contract)
    ///     (peekable_parts self.old) (peekable_parts self.new) }
    /// ```
    /// </details>
    pub fn next_if(&mut self, f: impl Fn(&I::Item) -> bool) -> Result<Option<I::Item>, I::Error> {
        match self.peek() {
            Ok(Some(x)) if f(x) => self.next(),
            Ok(_) => Ok(None),
            Err(e) => Err(e),
        }
    }

    /// Returns the next item, if it equals the expected one, and otherwise `Ok(None)`.
    ///
    /// Draws, errors and what is buffered: as `next_if`. The iterator may be used again.
    ///
    /// ```
    /// # use fallible_iterator::{FallibleIterator, convert};
    /// let mut it = convert([Ok::<u32, u8>(150), Ok(7)].into_iter()).peekable();
    /// assert_eq!(it.next_if_eq(&150), Ok(Some(150)));
    /// assert_eq!(it.next_if_eq(&150), Ok(None));
    /// assert_eq!(it.next(), Ok(Some(7)));
    /// ```
    ///
    /// <details><summary>Contract</summary>
    ///
    /// As it is proved, in [these words](crate::words):
    ///
    /// ```text
    /// requires { (peekable_contract I.contract).can_next (peekable_parts self.old) }
    /// ensures taken { NextIf I.contract.steps (λ x b. b ≡ I.Item.eq x expected.now)
    ///     (peekable_parts self.old) result (peekable_parts self.new) }
    /// ensures lists { OverList
    ///     (parts_as peekable_parts (peekable_contract I.contract)).steps self.old
    ///     (λ l. (result ≡ first_if (λ x. I.Item.eq x expected.now) l)
    ///     × Lists (parts_as peekable_parts (peekable_contract I.contract)).steps self.new
    ///     (rest_if (λ x. I.Item.eq x expected.now) l)) }
    /// ensures stays { Stays (peekable_contract I.contract)
    ///     (peekable_parts self.old) (peekable_parts self.new) }
    /// ensures fewer { (x : I.Item) → result ≡ Ok (Some x)
    ///     → Fewer (peekable_contract I.contract)
    ///     (peekable_parts self.old) (peekable_parts self.new) }
    /// ```
    /// </details>
    pub fn next_if_eq<T: ?Sized>(&mut self, expected: &T) -> Result<Option<I::Item>, I::Error>
    where
        I::Item: PartialEq<T>,
    {
        self.next_if(|item: &I::Item| item.eq(expected))
    }
}

impl<I: FallibleIterator> Peekable<I> {
    /// That `peek` holds the end that it drew, which `next` then returns. `fallible-itertools` asks, and takes what it holds
    ///
    /// for its own over a crate that doesn't say.
    #[doc(hidden)]
    pub const HOLDS_ENDS: bool = true;
}
