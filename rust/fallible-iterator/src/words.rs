//! What the contracts say. A contract stands in a comment, folded, as it is proved of the source, which is written in Rattle: `requires` is what a caller has to show there, `ensures` what it then knows. Nothing checks either here.
//!
//! `docs/READING.md` of the repository reads some of them aloud.
//!
//! # Terms
//!
//! | Word | Meaning |
//! |---|---|
//! | to draw | to call `next` or `next_back` on the source |
//! | an answer | what that returned: an item, `Ok(Some(x))`; a failure, `Err(e)`; or an end, `Ok(None)`, after which others may come |
//! | lists l | yields exactly l up to its first end (`Lists`); in l an item is `Ok x`, a failure `Err e` |
//! | lists l, fused | also returns `Ok(None)` at each later call (`ListsForGood`) |
//! | list word | a function on such lists, as `filtered` |
//! | held | buffered: taken from the source, or made of that, and not yielded yet |
//! | due | the next answer, which comes without a draw |
//! | lost | drawn, and yielded by nothing any more |
//! | what is left | the iterator after the call |
//! | a step | a value, the answer of one draw, and the value after it |
//! | a run; its trace | draws one after another, `Run steps s trace t`; their answers |
//! | a bound | a number: no run has more items; what has one is *finite* |
//! | a turn | what a fold does with one item: it changes the state, and may stop the fold |
//!
//! # Signs
//!
//! | Sign | Read it as |
//! |---|---|
//! | `self`; `self.now` | the value; what a `&self` points to |
//! | `self.old`, `self.new` | what a `&mut self` points to at the call, and at the return; so `it.old` of any parameter |
//! | `v.items` | the elements of a `Vec` |
//! | `f x y`; `λ x. e` | f called on x and y; the closure `\|x\| e` |
//! | `a % b`, `a ^ b` | remainder, power |
//! | `a ≡ b`, `¬ A` | a equals b; not A |
//! | `A ↔ B` | A if and only if B |
//! | `A × B`, `A ⊎ B` | A and B, of two types their pairs; A or B |
//! | `A → B`; `⊤`, `⊥` | if A then B; true, false |
//! | `(x : T) → P x`; `(x : T) × P x` | for every x of the type T, P x; there is an x with P x |
//! | `ℕ` | the numbers from 0 on; each unsigned integer is seen as one |
//! | `Type 0` | after a parameter, as in `{S A E : Type 0}`: any type; at the end of a word's type: the word is a proposition |
//! | `[]`, `x ∷ l`, `a ++ b` | the empty list, x before the list l, two lists joined |
//! | `contract.steps`, `I.contract.steps` | the steps of this type, of the type parameter I |
//! | `F.FnMut` | what the type F says of its calls |
//! | `ensures value { .. }` | a clause with a name, by which a proof cites it |
//!
//! # Words
//!
//! Those that the contracts of this crate name, each with the sentence of its definition. `docs/INDEX.md` of the repository has all.
//!
//! | Word | Sentence |
//! |---|---|
//! | `accepted_takes` | The test may be called on the item; and the closure on the value so far and the item, if the test may return true. |
//! | `AcceptedCall` | The test, called once on the item, returns true, and then the closure, called once on the value so far and the item, returns r. |
//! | `Acts` | The closure f acts as the function h: called on x it returns h x, and stays as it is. |
//! | `ActsWith` | The closure f acts as the function h on a value and an item: it returns h of them, and stays as it is. |
//! | `ActsWithState` | The closure f acts as the function `next` with a state: called at state t on x the closure returns and leaves what `next t x` says, and stays as it is itself. |
//! | `all_of` | whether h x is true of each item x |
//! | `all_pick` | `all` goes on if the predicate is true, and returns false if it isn't |
//! | `Answered`, `item`, `failure` | An answer is what one draw returns: an item, `Ok (Some x)`, a failure, `Err e`, or an end, `Ok None`. |
//! | `any_of` | whether h x is true of an item x |
//! | `any_pick` | `any` goes on if the predicate is false, and returns true if it isn't |
//! | `Asks` | The closure is called on the item, and returns. |
//! | `AtMost` | at most k items are still to come of s: k is a bound of it, or one that is no greater is |
//! | `best_by` | the best of the items by h, of equal ones the last, and none of no items; or the failure of the list or of h that comes first |
//! | `best_by_key` | the best of the items by the keys that h makes of them, of equal ones the last, and none of no items; or the failure of the list or of h that comes first |
//! | `BestByKeyDrains` | The closure was called once on each item in order, and returned the keys beside them. Then came the last answer: at an end the result is the item at the last place of a best key; otherwise it is the failure, or that of the closure on the item. |
//! | `BestDrains` | The draws returned items and then an end or a failure; the result is the best of them, or the failure. |
//! | `borrowed` | A borrowed iterator steps as the one that it points to, and stays the same reference. |
//! | `BoundsAbove` | Each run of items alone from s has at most the upper bound of them, where there is one. |
//! | `BoundsBelow` | Each run of items and then an end from s has at least the lower bound of them. |
//! | `by_cmp` | A rule says how two items compare, or that they have no order. The rule of an order is its answer, and that of an equality knows equal items only. |
//! | `by_eq` | equal where true, and without an order where false |
//! | `call_at_two` | one call on references to two items, which may return so and leave the closure so |
//! | `call_by_reference` | one call on a reference to an item |
//! | `call_by_value` | one call on an item itself, which may return so and leave the closure so |
//! | `call_of_none` | one call of the closure, which takes nothing |
//! | `call_with` | one call on the value so far and an item, which may return r and leave the closure as f' |
//! | `CallableDriving` | a turn may be taken on the state and each item that may come |
//! | `CallableInFold` | the closure may be called on the value so far and each item that may come |
//! | `CallableInSearch` | the closure may be called on each item that may come after items on which the search goes on |
//! | `CallsGive` | Called again and again, the closure returns the list's answers, in order, and then an end. |
//! | `CallsTakeShown` | In whatever state it is, a call of the closure takes the first of what that state shows, by `shows`, and leaves the rest; of an empty list an end, which leaves it empty. |
//! | `chain_contract` | `Chain`'s contract: both sides may be drawn from, also one that is over. |
//! | `chain_first` | the first side |
//! | `chain_parts` | the first, the second, and which of them are still drawn |
//! | `chain_second` | the second side |
//! | `chain_still_drawn` | which sides are still drawn |
//! | `chained` | one list and then another |
//! | `changed_first` | the list with w in the place of its first item |
//! | `cloned_contract` | `Cloned`'s contract. It requires nothing more than the source, and has the source's hint. |
//! | `cloned_parts` | the source, and nothing else |
//! | `collected` | the list of the items, or the first failure |
//! | `CollectedAs` | What `collect` returns over the list. |
//! | `Collects` | What `collect` returns: the collection of all items up to an end; the first failure; or an allocation failure, if creating an empty collection may fail, or an item was rejected. |
//! | `compared` | how two lists compare, pair by pair: the first two items that the rule doesn't find equal decide, and a list that ends before the other is less; or the failure that comes first, of the first list before that of the second |
//! | `CompareDraws` | Both sides yielded pairs of items that compare equal, one by one; then came the last round, which decided. |
//! | `ComparedWith` | The other value became an iterator, as `into` allows, and the comparison with it had this result. |
//! | `convert_contract` | `Convert`'s contract. |
//! | `convert_parts` | the std iterator |
//! | `Converts` | Failures convert as the function does. |
//! | `CountDrains` | The draws from s returned items and then an end or a failure, and left t; the result is the number of the items, or the failure. |
//! | `counted` | the number of items, or the first failure |
//! | `cycle_kept` | the source that is kept for the next round |
//! | `cycle_source` | the source |
//! | `decided_round` | What a round decides in which neither side fails: two ends are equal, the side that ends alone is less, and two items decide unless they are equal. |
//! | `Driven` | The draws from s returned items and a last answer, and left t, by which the fold from the state c on returns r and leaves d. |
//! | `each_done` | nothing, if no item is a failure and h fails on none; otherwise the failure that comes first |
//! | `EachLists` | Whatever iterator `into` allows for an item x, its answers list `inner x`. |
//! | `empty_contract` | `Empty`'s contract: nothing may come. |
//! | `enumerate_contract` | The contract of `Enumerate`. `next` may be called where it may be on the source and the numbers of all items to come fit a `usize`. What may still come is an item that the source may give, with a number from the next one on, below each bound of those to come. |
//! | `enumerate_parts` | the source, and the number of the next item |
//! | `failing_step` | one draw of an adapter that replaces failures: its trace of one answer |
//! | `FailingAnswer` | What an adapter that replaces failures makes of one answer of its source, or of the result of a call on its source: a failure becomes what the closure returns for it; all else passes, without a call. |
//! | `failure_told` | whether the answer was a failure, and which |
//! | `failures_mapped` | h e in the place of each failure e |
//! | `Fewer` | each bound of s is more than one of t |
//! | `Fills` | where nothing is held, one answer is drawn, and an item or an end is held; a failure is told |
//! | `filter_contract` | `Filter`'s contract: its hint has the source's upper bound alone. |
//! | `filter_map_contract` | `FilterMap`'s contract: its hint has the source's upper bound alone. |
//! | `filter_map_parts` | the source, and the closure |
//! | `filter_mapped` | the value of h x in the place of each item x, and nothing where h x is none; where h x is a failure, that failure in the place of x |
//! | `filter_parts` | the source, and the predicate |
//! | `filtered` | without the items x for which h x is false; where h x is a failure, that failure in the place of x |
//! | `find_answer` | what `find` returns, from what its fold returned, which stops with the item or the failure of the test |
//! | `find_map_pick` | `find_map` returns the first value that the closure returns |
//! | `find_mapped` | the first value that h makes of an item, if it makes one |
//! | `find_pick` | `find` returns the first item for which the predicate is true |
//! | `first_if` | the item x that stands first, if h x is true; none if it is false or the list is empty, and the failure that stands first |
//! | `flat_map_closure` | the closure |
//! | `flat_map_contract` | `FlatMap`'s contract: that of a `Flatten` over the `Map` of the closure. |
//! | `flat_map_inner` | the current inner iterator |
//! | `flat_map_parts` | the `Map` of the closure over the source, and the current inner iterator |
//! | `flat_map_source` | the source |
//! | `flatten_contract` | The contract of `Flatten`. `next` may be called where it may be on the outer source, which has a bound, since many inner iterators may end at once, and on the inner iterator in hand and each that may come. There is a bound where the outer source and the inner iterator in hand have one, and one serves for all that may come. |
//! | `flatten_inner` | the current inner iterator |
//! | `flatten_parts` | the outer source, and the current inner iterator |
//! | `flatten_source` | the source |
//! | `flattened` | the list `inner x` in the place of each item x; failures stay in their places |
//! | `FoldDrains` | The draws from s returned items and a last answer, and left t, by which the fold with f from b on returns r. |
//! | `folded` | the value that h makes of the value so far and each item, or its first failure, or the list's first, converted |
//! | `folded_if` | the value that h makes of the value so far and each item x in order, as long as p x is true; or the failure of the list, of p or of h that comes first |
//! | `FoldIfDrains` | Draws yielded the items. On each of them in order the test returned true, and then the closure, called on the value so far, b at first, returned the next one. Then came a look at the next answer, with a call of the test if it is an item. By that the fold returns r and leaves t: at an end and a rejected item the last value; at a failure, of the source or of the test, that failure; at an accepted item the failure of the closure on it. |
//! | `FoldingTakes` | The turn may be taken if the closure may be called, and the caller's turn may be taken on what it keeps. |
//! | `FoldingTurn` | The source's turn, whose state is the caller's and the closure: one call of the closure on the item, and what its outcome makes of it. |
//! | `FoldsAs` | The closure f acts as the function h on a value and each item on which p returns true: it returns h of them, and stays as it is. |
//! | `for_each_pick` | `for_each` goes on at each item |
//! | `found` | the first item x for which h x is true, if there is one |
//! | `from_back` | the contract of draws from the back |
//! | `from_fn_contract` | `FromFn`'s contract: the closure may be called in each state that calls bring it to. It has a bound only where its runs do. |
//! | `from_fn_parts` | the closure |
//! | `from_front` | the contract of draws from the front, where draws from the back are made as well |
//! | `fuse_contract` | `Fuse`'s contract: that of its source but for the step and the hint, which the source's end closes. |
//! | `fuse_parts` | the source, and whether its end was met |
//! | `fuse_source` | the source |
//! | `greatest` | the greatest of the items by their order, of equal ones the last, and none of no items; or the first failure |
//! | `held_item` | the held item, if it is one that is held |
//! | `held_of` | what is held once it was drawn: an item or an end, and no failure |
//! | `hint_kept` | of each bound b, how many of b items are kept |
//! | `hint_less` | each bound less n, and not below 0 |
//! | `hint_smaller` | the smaller lower bound, and the smaller of the upper bounds that are known |
//! | `hint_sum` | The sums of the bounds. The lower one is at most `usize::MAX`; there is no upper one where either is missing or the sum doesn't fit. |
//! | `hint_up_to` | the smaller of each bound and n |
//! | `HintWithItem` | one more on each bound |
//! | `HoldsAtEachTurn` | P holds of each item that may come after items on which the turns went on, with what they made by then |
//! | `IfItem` | where the answer is an item, P holds of it |
//! | `inspect_contract` | `Inspect`'s contract: the closure may be called on each item that may come, and its hint is the source's. |
//! | `inspect_parts` | the source, and the closure |
//! | `inspected` | the list itself, but where h x is a failure, that failure in the place of the item x |
//! | `into_fallible_contract` | `IntoFallible`'s contract. |
//! | `into_fallible_parts` | the std iterator |
//! | `IsCallable` | In each state that calls on arguments of which P holds bring f to, it may be called on each such argument. |
//! | `IsNumberable` | The source may be drawn from, and the numbers from n on of all items to come fit a `usize`. |
//! | `IsTestable` | The closure may be called on a reference to each item of which P holds. |
//! | `item_of` | the item beside its key, where there is one |
//! | `ItemPassed` | one item passed: one call on it, and what becomes of it by the closure's answer |
//! | `items` | each an item |
//! | `ItemsRead` | Whatever calls of a std iterator's `next` return from s, it reads the list, each element in an `Ok`: what comes at a place is the element there, and `None` comes only after the last one. |
//! | `iterator_parts` | the source |
//! | `iterator_steps` | One call of std's `next` is one draw of the source: an item or a failure is an element, an end is none. |
//! | `KeyCall` | The closure makes the key of the item, and the keys compare. |
//! | `last_of` | the last of the items, and none of no items; or the first failure |
//! | `LastDrains` | The draws from s returned items and then an end or a failure, and left t; the result is the last of the items, none if there are no items, or the failure. |
//! | `least` | the least of the items by their order, of equal ones the last, and none of no items; or the first failure |
//! | `LeavesNoneOut` | each item on which the closure was called has an answer |
//! | `Lists` | The answers of s, up to its first end, list l. |
//! | `ListsBothEnds` | s lists l from both ends: for any number of draws. |
//! | `ListsForGood` | The answers of s list l, and each further one is an end. |
//! | `ListsUntilRefused` | The answers of s, up to its first end or allocation failure, list l, with values made of its items; or its beginning where they end with that failure, which stands in the place of one of the list's. |
//! | `look_of` | h of the item that stands first; none if the list is empty, and the failure that stands first |
//! | `Looks` | `look`: a peek, and what the closure returns for the item. |
//! | `LooksAs` | The closure f returns h x for each item x. |
//! | `MadeOf` | There is a value in r, and the collection is made of it. |
//! | `MadeOfPairs` | The first collection is made of the pairs' first halves, and the second of their second halves. |
//! | `MadeOfSides` | Each of the two collections is made of the list of its side. |
//! | `map_contract` | `Map`'s contract: the closure may be called on each item that may come, and its hint is the source's. |
//! | `map_err_contract` | `MapErr`'s contract: the closure may be called on each failure that may come, in each state that such calls bring it to; all else is the source's, its hints too. |
//! | `map_err_parts` | the source and the closure |
//! | `map_parts` | the source, and the closure |
//! | `map_while_contract` | `MapWhile`'s contract: its hint has the source's upper bound alone, since none is an end. |
//! | `map_while_parts` | the source, and the closure |
//! | `mapped` | h x in the place of each item x |
//! | `mapped_while` | the value of h x in the place of each item x, up to the first item for which h x is none; where h x is a failure, that failure in the place of x |
//! | `NeverFails` | no failure can ever come again |
//! | `NextIf` | `next_if`: a peek, and then a draw if the test is true of the item; otherwise what is held stays held, and the result is an end, or the failure. |
//! | `NoFailureAtEnd` | beside the end of the first list, if the second comes so far, stands no failure |
//! | `nth_of` | the item with n items before it, or the failure or the end that comes first |
//! | `NthDrains` | The draws from s returned the skipped items and then r, the first answer that is the item with n items before it, a failure, or an end. They left t. |
//! | `numbered` | each item beside its number, from n on; failures have none |
//! | `once_contract` | `Once`'s contract: what is held is all that may come. |
//! | `once_err_contract` | `OnceErr`'s contract: no item comes, and what is held is the one failure that may. |
//! | `once_err_parts` | the failure that is still to come |
//! | `once_parts` | the item that is still to come |
//! | `OneIsFinite` | One of the two sides is finite: the left, or whatever the other value may become. |
//! | `OverBoth` | Over a source that lists a, and beside it another one that lists b, whatever a value becomes by `into`, P a b. |
//! | `OverList` | Over a source that lists l, P l. |
//! | `OverListWith` | Over a source that lists l, and with a function h as which a closure acts, P h l. |
//! | `PairRefused` | The first collection rejects the first half; or it takes it, and the second collection rejects the second half. |
//! | `partitioned` | the items x for which h x is true, and those for which it is false; or the failure of the list or of h that comes first |
//! | `PartitionedAs` | What `partition` returns over the list. |
//! | `Partitions` | What `partition` returns: both collections, made of all items up to an end; the first failure of the source or the closure, before which both were made of the items; or an allocation failure, if creating an empty collection may fail, or an item was rejected. |
//! | `parts_as` | the contract of a struct by its parts: its definition is that of the parts |
//! | `PassAnswer` | An item becomes what the closure's answer on it makes of it; a failure and an end pass, without a call. |
//! | `passing_step` | one draw of an adapter that lets items pass: its trace of one answer |
//! | `peekable_contract` | A held item is one more to come than the source's, and one more that remains. |
//! | `peekable_held` | the answer that it holds, if it holds one |
//! | `peekable_parts` | the source, and the answer that was looked at |
//! | `Peeks` | `peek`: if an answer is held it is that one, nothing is drawn and nothing changes; otherwise one answer is drawn, and an item or an end is held. |
//! | `PickCall` | The first item is the best so far, without a call. From then on the closure is called on the best so far and the next item. |
//! | `PickDrains` | The draws returned items and a last answer. The closure was called in order on the best up to each item and the item after that one, and returned the orders, by which the bests go on. The last answer decides the result. |
//! | `PickedByFold` | The result is that of a fold that carries the best so far, from none on. |
//! | `pointed_to` | what each item points to, in its place |
//! | `position_in` | how many items stand before the first item x for which h x is true, if there is one |
//! | `position_pick` | `position` returns how many items stand before the first for which the predicate is true |
//! | `read_as` | what a comparison's answer is read as, where it isn't a failure |
//! | `reads_lt`, `reads_le`, `reads_gt`, `reads_ge`, `reads_eq`, `reads_ne` | whether there is an order, and it is less; less or equal; greater; greater or equal; equal; and whether it isn't equal |
//! | `ReadWith` | The value became an iterator, and the comparison's result, read by `reads`, is r. |
//! | `recovering_contract` | The contract of an adapter that may leave failures out is that of one that leaves items out, with items and failures exchanged. So it requires that the source is finite and what remains of it has a bound, which is its own bound too. Nothing is known of how many items come, so its hint says nothing. |
//! | `recovering_step` | one draw of an adapter that may leave failures out: its trace of one answer |
//! | `reduce_takes` | the call of a fold from the first item on may be made |
//! | `ReduceCall` | One call of a fold from the first item on: that item is the value so far, without a call, and from then on the closure is called on the value so far and the next item. |
//! | `reduced` | the first item, and from then on h of the value so far and each item; none if there is no item, and the first failure |
//! | `repeat_contract` | `Repeat`'s contract. It has a bound only where its runs do. |
//! | `repeat_err_parts` | the failure that is cloned |
//! | `repeat_parts` | the value that is cloned |
//! | `repeated` | n times the item x |
//! | `Repeats` | Whatever is drawn from s, each answer is y. |
//! | `rest_false` | what `all` leaves: what comes after the first item x for which h x is false |
//! | `rest_first` | without the first answer |
//! | `rest_fold` | what `try_fold` leaves: what comes after the first item on which h, called on the value so far and that item, fails; or after the failure of the list that comes first |
//! | `rest_fold_if` | what `fold_if` leaves: the list from the first item x on for which p x is false; or what comes after the first item on which p fails, or on which h, called on the value so far and that item, fails, or after the failure of the list that comes first |
//! | `rest_if` | what `next_if` leaves: the list without its first item x, where h x is true, or without the failure that stands first |
//! | `rest_look` | what `peek` and `look` leave: the list, without the failure that stands first |
//! | `rest_nth` | what comes after the item with n items before it, or after the failure that comes first |
//! | `rest_true` | what `find`, `any` and `position` leave: what comes after the first item x for which h x is true |
//! | `rest_value` | what `find_map` leaves: what comes after the first item x for which h x is a value |
//! | `results` | the results themselves, as answers |
//! | `rev_contract` | `Rev`'s contract: a draw from it is a draw from the back of its source. |
//! | `rev_parts` | the source |
//! | `reversed` | the last first |
//! | `Run` | A step relates a value, the answer of one draw and the value after it. A trace is the list of the answers to draws made one after another: from s, draws can return the trace and leave t. |
//! | `RunsRead` | Whatever calls of a std iterator's `next` return from s, it reads the list: at each place h of the element there, and `None` only after the last one. |
//! | `RunsReadBack` | Whatever calls of a std iterator's `next_back` return from s, it reads the list from the back: the last element first, and `None` only after the first one. |
//! | `scan_call` | a call on the state and an item, which may change both the closure and the state |
//! | `scan_closure` | the closure |
//! | `scan_contract` | `Scan`'s contract: its hint has the source's upper bound alone, since none is an end. |
//! | `scan_parts` | the source, and the state beside the closure |
//! | `scan_source` | the source |
//! | `scan_state` | the state |
//! | `scan_takes` | the closure may be called on the state and the item |
//! | `scanned` | at state t the answer of `next t x` in the place of each item x, up to the first none, and the rest at the state that `next t x` leaves |
//! | `search_answer` | what a search returns, from what its fold returned, which stops with the search's result |
//! | `SearchDrains` | The draws from s returned items and a last answer, and left t, by which the search with f returns r and leaves it as g. |
//! | `searched` | What a search returns that calls h on the items in order, the first of which has n items before it: what `pick` makes of the first result of which it makes something, or a failure of the list or of h that comes before; `none` if there is neither. |
//! | `seen` | what the reference that is returned points to |
//! | `seen_as` | the contract of a type whose values are seen as those of another |
//! | `seen_mut` | what the mutable reference that is returned points to |
//! | `skip_call` | The predicate is called on an item until its first false, and the flag says whether that was; then it isn't called any more, and nothing changes. |
//! | `skip_contract` | `Skip`'s contract: that of its source but for the step and the hint, which is sound wherever the source's is that it is made of. |
//! | `skip_parts` | the source, and how many items are still to be left out |
//! | `skip_takes` | the predicate may be called on the item, if it is called |
//! | `skip_while_contract` | `SkipWhile`'s contract. |
//! | `skip_while_found` | whether the first kept item was found |
//! | `skip_while_parts` | the source, and whether the predicate returned false beside the predicate |
//! | `skip_while_predicate` | the predicate |
//! | `skip_while_source` | the source |
//! | `skipped` | without the first n items; failures don't count, and stay |
//! | `skipped_while` | from the first item x on for which h x is false; before it failures stay, and where h x is a failure, that failure in the place of x |
//! | `Stays` | What `KeptByDraws` says, after any number of draws from one end; and what can never fail can't fail afterwards. |
//! | `step_by_between` | how many items stand between two that are kept |
//! | `step_by_contract` | `StepBy`'s contract: that of its source but for the step and the hint, which is sound wherever the source's is that it is made of. |
//! | `step_by_parts` | the source, and how many items are left out between two and how many next |
//! | `step_by_source` | the source |
//! | `step_by_to_skip` | how many items it leaves out before the next one |
//! | `stepped` | without the first n items, and from there on without the `between` items after each one that is kept; failures don't count, and stay |
//! | `take_contract` | `Take`'s contract. It is always finite: what is left to take is a bound, and so is each of the source's. |
//! | `take_parts` | the source, and how many items are still to be taken |
//! | `take_while_contract` | `TakeWhile`'s contract: the predicate may be called on each item that may come. Until an item is rejected the hint has the source's upper bound alone, and is sound where that is; from then on always. |
//! | `take_while_parts` | the source and the predicate, and whether an item was rejected |
//! | `take_while_predicate` | the predicate |
//! | `take_while_refused` | whether an item was rejected |
//! | `take_while_source` | the source |
//! | `taken` | up to and with the n-th item; failures don't count |
//! | `taken_while` | up to the first item x for which h x is false, without it; where h x is a failure, that failure in the place of x |
//! | `takes_at_two` | the closure may be called on references to these two |
//! | `takes_by_reference` | the closure may be called on a reference to the item |
//! | `takes_by_value` | the closure may be called on the item |
//! | `takes_in_pick` | the closure may be called on the best so far, where there is one, and the next item |
//! | `takes_with` | the closure may be called on the value so far and an item |
//! | `TakesFailure` | where that is a failure, the closure may be called on it |
//! | `TestedBy` | the test of an item by a closure, which may be called on a reference to it |
//! | `unwrap_parts` | the source |
//! | `unwrap_steps` | One call of std's `next` is one draw of the source, which returns an item or an end. |
//! | `unwrapped` | the items of a list, in order |
//! | `UnzippedAs` | What `unzip` returns over the list: what `collect` into the pair of the two collections returns. |
//! | `with_held` | s where the held item is changed to x |
//! | `within` | What a fold of the source returns whose turn stops with a result: that result, or the source's end or failure. |
//! | `zip_contract` | Each bound of either source is one of the zip, and so it has an end where one of them has. A failure may come of either, so what remains is that of both, added up. |
//! | `zip_left` | the left side |
//! | `zip_parts` | the left and the right |
//! | `zip_right` | the right side |
//! | `zipped` | pairs of an item and what stands beside it, up to the first end; a failure of the first list stands alone, and one of the second takes the item's place |
