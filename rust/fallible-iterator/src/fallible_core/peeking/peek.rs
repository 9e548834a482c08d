// `peek`, apart from its type, whose row its clause names.

use crate::fallible_core::peeking::Peekable;
use crate::fallible_core::traits::FallibleIterator;

impl<I: FallibleIterator> Peekable<I> {
    /// Returns a reference to the next item, or `Ok(None)`. If something is buffered, it is that.
    ///
    /// It draws once if nothing is buffered, and otherwise nothing. It fails as the source does; a failure isn't buffered. An item or an `Ok(None)` is buffered then, so that `next` returns it without a draw. The iterator may be used again.
    ///
    /// The reference borrows the whole iterator while it is used.
    ///
    /// ```
    /// # use fallible_iterator::{FallibleIterator, convert};
    /// let mut it = convert([Ok::<u32, u8>(150), Err(9)].into_iter()).peekable();
    /// assert_eq!(it.peek(), Ok(Some(&150)));
    /// assert_eq!(it.peek(), Ok(Some(&150)));
    /// assert_eq!(it.next(), Ok(Some(150)));
    /// assert_eq!(it.peek(), Err(9));
    /// assert_eq!(it.peek(), Ok(None));
    /// ```
    ///
    /// <details><summary>Contract</summary>
    ///
    /// As it is proved, in [these words](crate::words):
    ///
    /// ```text
    /// requires { (peekable_contract I.contract).can_next (peekable_parts self.old) }
    /// ensures answer { (left : I × Option (Option I.Item))
    ///     × Peeks I.contract.steps (peekable_parts self.old) (seen result) left }
    /// ensures* held { sem 𝓛 (follows_so (the_row I.row I.Item.row I.Error.row)
    ///     (the_row I.row I.Item.row I.Error.row) self.entry.ghost_name none (λ _ _. ⊤)
    ///     (λ v. Peeks I.contract.steps (peekable_parts self.old) (seen result) (peekable_parts v)
    ///     × Stays (peekable_contract I.contract) (peekable_parts self.old)
    ///     (peekable_parts v))) }
    /// ```
    /// </details>
    pub fn peek(&mut self) -> Result<Option<&I::Item>, I::Error> {
        let filled = self.fill();
        let held = self.lend();
        Self::joined(filled, held)
    }

    /// Returns a mutable reference to the next item, or `Ok(None)`. What is written there is buffered, and `next` returns it.
    ///
    /// Draws, errors and what is buffered: as `peek`. The iterator may be used again.
    ///
    /// ```
    /// # use fallible_iterator::{FallibleIterator, convert};
    /// let mut it = convert([Ok::<u32, u8>(150), Ok(7)].into_iter()).peekable();
    /// if let Ok(Some(reading)) = it.peek_mut() {
    ///     *reading = 151;
    /// }
    /// assert_eq!(it.next(), Ok(Some(151)));
    /// assert_eq!(it.next(), Ok(Some(7)));
    /// ```
    ///
    /// <details><summary>Contract</summary>
    ///
    /// As it is proved, in [these words](crate::words):
    ///
    /// ```text
    /// requires { (peekable_contract I.contract).can_next (peekable_parts self.old) }
    /// ensures { (left : I × Option (Option I.Item))
    ///     × Peeks I.contract.steps (peekable_parts self.old) (seen_mut result) left }
    /// ```
    /// </details>
    pub fn peek_mut(&mut self) -> Result<Option<&mut I::Item>, I::Error> {
        self.fill()?;
        Ok(self.held_mut())
    }

    /// Returns what the closure returns for a reference to the next item, or `Ok(None)`.
    ///
    /// Draws, errors and what is buffered: as `peek`. The iterator may be used again.
    ///
    /// ```
    /// # use fallible_iterator::{FallibleIterator, convert};
    /// let mut it = convert([Ok::<u32, u8>(150), Ok(7)].into_iter()).peekable();
    /// assert_eq!(it.look(|reading| *reading > 100), Ok(Some(true)));
    /// assert_eq!(it.next(), Ok(Some(150)));
    /// ```
    ///
    /// <details><summary>Contract</summary>
    ///
    /// As it is proved, in [these words](crate::words):
    ///
    /// ```text
    /// requires can_next { (peekable_contract I.contract).can_next (peekable_parts self.old) }
    /// requires callable { IsTestable F.Fn f
    ///     ((peekable_contract I.contract).may_give (peekable_parts self.old)) }
    /// ensures looked { Looks I.contract.steps F.Fn f
    ///     (peekable_parts self.old) result (peekable_parts self.new) }
    /// ensures lists { OverListWith (LooksAs F.Fn f)
    ///     (parts_as peekable_parts (peekable_contract I.contract)).steps self.old
    ///     (λ h l. (result ≡ look_of h l)
    ///     × Lists (parts_as peekable_parts (peekable_contract I.contract)).steps
    ///     self.new (rest_look l)) }
    /// ensures stays { Stays (peekable_contract I.contract)
    ///     (peekable_parts self.old) (peekable_parts self.new) }
    /// ```
    /// </details>
    #[doc(hidden)]
    pub fn look<R, F: Fn(&I::Item) -> R>(&mut self, f: F) -> Result<Option<R>, I::Error> {
        self.fill()?;
        match self.held() {
            Some(x) => Ok(Some(f(x))),
            None => Ok(None),
        }
    }

    /// Returns a copy of the next item, or `Ok(None)`.
    ///
    /// Draws, errors and what is buffered: as `peek`. The iterator may be used again.
    ///
    /// ```
    /// # use fallible_iterator::{FallibleIterator, convert};
    /// let mut it = convert([Ok::<u32, u8>(150), Ok(7)].into_iter()).peekable();
    /// assert_eq!(it.peek_copied(), Ok(Some(150)));
    /// assert_eq!(it.next(), Ok(Some(150)));
    /// ```
    ///
    /// <details><summary>Contract</summary>
    ///
    /// As it is proved, in [these words](crate::words):
    ///
    /// ```text
    /// requires { (peekable_contract I.contract).can_next (peekable_parts self.old) }
    /// ensures peeked { Peeks I.contract.steps
    ///     (peekable_parts self.old) result (peekable_parts self.new) }
    /// ensures lists { OverList
    ///     (parts_as peekable_parts (peekable_contract I.contract)).steps self.old
    ///     (λ l. (result ≡ nth_of 0 l)
    ///     × Lists (parts_as peekable_parts (peekable_contract I.contract)).steps
    ///     self.new (rest_look l)) }
    /// ensures stays { Stays (peekable_contract I.contract)
    ///     (peekable_parts self.old) (peekable_parts self.new) }
    /// ```
    /// </details>
    pub fn peek_copied(&mut self) -> Result<Option<I::Item>, I::Error>
    where
        I::Item: Copy,
    {
        self.fill()?;
        Ok(self.held().copied())
    }

    /// Buffers what comes next, an item or an `Ok(None)`, as `peek` does, and returns `Ok(())`. Then `held` returns the item: with it this is `peek` in two steps.
    ///
    /// Draws, errors and what is buffered: as `peek`. The iterator may be used again.
    ///
    /// ```
    /// # use fallible_iterator::{FallibleIterator, convert};
    /// let mut it = convert([Ok::<u32, u8>(150), Err(9)].into_iter()).peekable();
    /// assert_eq!(it.fill(), Ok(()));
    /// assert_eq!(it.held(), Some(&150));
    /// ```
    ///
    /// <details><summary>Contract</summary>
    ///
    /// As it is proved, in [these words](crate::words):
    ///
    /// ```text
    /// requires { (peekable_contract I.contract).can_next (peekable_parts self.old) }
    /// ensures filled { Fills I.contract.steps
    ///     (peekable_parts self.old) result (peekable_parts self.new) }
    /// ensures stays { Stays (peekable_contract I.contract)
    ///     (peekable_parts self.old) (peekable_parts self.new) }
    /// ensures lists { OverList
    ///     (parts_as peekable_parts (peekable_contract I.contract)).steps self.old
    ///     (λ l. (result ≡ failure_told (nth_of 0 l))
    ///     × (peekable_held self.new ≡ held_of (nth_of 0 l))
    ///     × Lists (parts_as peekable_parts (peekable_contract I.contract)).steps
    ///     self.new (rest_look l)) }
    /// ```
    /// </details>
    #[doc(hidden)]
    pub fn fill(&mut self) -> Result<(), I::Error> {
        match self.held {
            Some(_) => Ok(()),
            None => self.hold(),
        }
    }

    // Draws once, if nothing is buffered, and buffers an item or an `Ok(None)`.
    fn hold(&mut self) -> Result<(), I::Error> {
        match self.it.next() {
            Ok(answer) => {
                self.held = Some(answer);
                Ok(())
            }
            Err(e) => Err(e),
        }
    }

    /// Returns the buffered item, and `None` if an `Ok(None)` or nothing is buffered.
    ///
    /// It draws nothing and never fails. What is buffered stays so.
    ///
    /// ```
    /// # use fallible_iterator::{FallibleIterator, convert};
    /// let mut it = convert([Ok::<u32, u8>(150), Err(9)].into_iter()).peekable();
    /// assert_eq!(it.fill(), Ok(()));
    /// assert_eq!(it.held(), Some(&150));
    /// ```
    ///
    /// <details><summary>Contract</summary>
    ///
    /// As it is proved, in [these words](crate::words):
    ///
    /// ```text
    /// ensures { option_copied result ≡ held_item (peekable_held self.now) }
    /// ```
    /// </details>
    #[doc(hidden)]
    pub fn held(&self) -> Option<&I::Item> {
        match &self.held {
            Some(Some(x)) => Some(x),
            Some(None) => None,
            None => None,
        }
    }

    /// Returns a mutable reference to the buffered item, and `None` if an `Ok(None)` or nothing is buffered. What is written there is buffered, and `next` returns it.
    ///
    /// It draws nothing and never fails. The iterator may be used again.
    ///
    /// ```
    /// # use fallible_iterator::{FallibleIterator, convert};
    /// let mut it = convert([Ok::<u32, u8>(150), Ok(7)].into_iter()).peekable();
    /// assert_eq!(it.fill(), Ok(()));
    /// if let Some(reading) = it.held_mut() {
    ///     *reading = 151;
    /// }
    /// assert_eq!(it.next(), Ok(Some(151)));
    /// assert_eq!(it.next(), Ok(Some(7)));
    /// ```
    ///
    /// <details><summary>Contract</summary>
    ///
    /// As it is proved, in [these words](crate::words):
    ///
    /// ```text
    /// ensures value { option_copied_mut result ≡ held_item (peekable_held self.old) }
    /// ensures* writes_back { sem 𝓛 (LendsIf (the_row I.row I.Item.row I.Error.row) I.Item.row
    ///     self.entry result (with_held self.old) self.old) }
    /// ensures lists { OverList
    ///     (parts_as peekable_parts (peekable_contract I.contract)).steps self.old
    ///     (λ l. (x w : I.Item) → held_item (peekable_held self.old) ≡ Some x
    ///     → Lists (parts_as peekable_parts (peekable_contract I.contract)).steps
    ///     (with_held self.old w) (changed_first w l)) }
    /// ```
    /// </details>
    #[doc(hidden)]
    pub fn held_mut(&mut self) -> Option<&mut I::Item> {
        match self.held.as_mut() {
            Some(answer) => answer.as_mut(),
            None => None,
        }
    }

    // The buffered item, borrowed from the whole.
    fn lend(&mut self) -> Option<&I::Item> {
        (*self).held()
    }

    // The buffered item, or the failure.
    fn joined(
        filled: Result<(), I::Error>,
        held: Option<&I::Item>,
    ) -> Result<Option<&I::Item>, I::Error> {
        match filled {
            Ok(()) => Ok(held),
            Err(e) => Err(e),
        }
    }
}
