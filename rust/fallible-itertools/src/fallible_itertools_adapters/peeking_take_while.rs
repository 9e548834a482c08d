//! The adapter that leaves the first rejected item in the iterator that it borrows.

use fallible_iterator::{FallibleIterator, Peekable};

/// An iterator whose next item can be looked at, and stays next then: a `Peekable`, and a borrowed one.
pub trait PeekingNext: FallibleIterator + Sized {
    /// For types that look ahead: as `next`, but the closure is called on an item first. If the closure rejects the item, it stays next, and the call returns `Ok(None)`. A caller uses `peeking_take_while`.
    ///
    /// It draws once, or looks ahead if the item is rejected. It fails as `next` does. If the closure fails, its failure is returned, and the item is lost. The iterator may be used again.
    ///
    /// <details><summary>Contract</summary>
    ///
    /// As it is proved, in [these words](crate::words):
    ///
    /// ```text
    /// requires can_next { Self.contract.can_next self.old }
    /// requires callable { IsCallable (call_by_reference F.FnMut) (takes_by_reference F.FnMut)
    ///     (Self.contract.may_give self.old) accept.old }
    /// ensures { peeking_step Self.contract.steps looks (call_by_reference F.FnMut)
    ///     (self.old, accept.old) result (self.new, accept.new) }
    /// ```
    /// </details>
    fn next_accepted<F>(&mut self, accept: &mut F) -> Result<Option<Self::Item>, Self::Error>
    where
        F: FnMut(&Self::Item) -> Result<bool, Self::Error>;

    /// Yields the items up to the first one that the closure rejects, which stays next in this iterator.
    ///
    /// Creating it draws nothing and calls nothing. `next` draws once. It fails as this iterator does. If the closure fails, its failure is yielded, and the item is lost. A call at a rejected item returns `Ok(None)`, and the next call calls the closure on the same item again. A failure and an `Ok(None)` of this iterator pass, and exhaust nothing.
    ///
    /// This iterator goes on with what is left: the rejected item comes next, also for `peek`.
    ///
    /// ```
    /// # use fallible_iterator::{FallibleIterator, convert};
    /// # use fallible_itertools::PeekingNext;
    /// let mut it = convert([Ok::<u32, u8>(150), Ok(7), Ok(700)].into_iter()).peekable();
    /// let above = it.peeking_take_while(|reading| Ok(*reading > 100)).count();
    /// assert_eq!(above, Ok(1));
    /// assert_eq!(it.next(), Ok(Some(7)));
    /// ```
    ///
    /// <details><summary>Contract</summary>
    ///
    /// As it is proved, in [these words](crate::words):
    ///
    /// ```text
    /// requires { IsCallable (call_by_reference F.FnMut) (takes_by_reference F.FnMut)
    ///     (Self.contract.may_give self.old) accept }
    /// ensures source { (peeking_source result).now ≡ self.old }
    /// ensures same_reference { (peeking_source result).ghost_name ≡ self.entry.ghost_name }
    /// ensures closure { peeking_closure result ≡ accept }
    /// ensures lists { OverListWith (Acts (call_by_reference F.FnMut) accept) Self.contract.steps self.old
    ///     (λ h l. Lists (seen_as peeking_parts (peeking_contract (borrowed Self.contract)
    ///     (borrowed_looks looks) F.FnMut)).steps result (taken_while h l)) }
    /// ```
    /// </details>
    fn peeking_take_while<F>(&mut self, accept: F) -> PeekingTakeWhile<&mut Self, F>
    where
        F: FnMut(&Self::Item) -> Result<bool, Self::Error>,
    {
        PeekingTakeWhile { it: self, accept }
    }
}

impl<I: FallibleIterator> PeekingNext for Peekable<I> {
    fn next_accepted<F>(&mut self, accept: &mut F) -> Result<Option<I::Item>, I::Error>
    where
        F: FnMut(&I::Item) -> Result<bool, I::Error>,
    {
        let accepted = match self.peek() {
            Ok(Some(item)) => accept(item),
            // The original holds no end: a `next` would draw again.
            Ok(None) => Ok(Peekable::<I>::HOLDS_ENDS),
            Err(e) => return Err(e),
        };
        match accepted {
            Ok(true) => self.next(),
            Ok(false) => Ok(None),
            Err(e) => match self.next() {
                Ok(_) => Err(e),
                Err(_) => unreachable!(),
            },
        }
    }
}

impl<P: PeekingNext> PeekingNext for &mut P {
    fn next_accepted<F>(&mut self, accept: &mut F) -> Result<Option<P::Item>, P::Error>
    where
        F: FnMut(&P::Item) -> Result<bool, P::Error>,
    {
        (**self).next_accepted(accept)
    }
}

/// The items of what looks ahead up to the first one that the closure rejects, which stays next. A call there returns `Ok(None)`, and the next call calls the closure on the same item again. An item on which the closure fails is lost, and its failure is yielded.
#[derive(Clone, Debug)]
#[must_use = "an iterator draws nothing until it is asked"]
pub struct PeekingTakeWhile<P, F> {
    pub(crate) it: P,
    pub(crate) accept: F,
}

impl<P: PeekingNext, F: FnMut(&P::Item) -> Result<bool, P::Error>> FallibleIterator
    for PeekingTakeWhile<P, F>
{
    type Item = P::Item;

    type Error = P::Error;

    /// Draws once, and calls the closure on an item; a rejected item stays next. Folds are made of such draws: a fold of the source would drop the rejected item.
    fn next(&mut self) -> Result<Option<P::Item>, P::Error> {
        self.it.next_accepted(&mut self.accept)
    }

    fn size_hint(&self) -> (usize, Option<usize>) {
        (0, self.it.size_hint().1)
    }
}

// Whether `peek` holds the end that it drew. What a `Peekable` says of itself goes before this, which is of the original's.
#[allow(dead_code)]
trait HoldsEnds {
    const HOLDS_ENDS: bool = false;
}

impl<I: FallibleIterator> HoldsEnds for Peekable<I> {}
