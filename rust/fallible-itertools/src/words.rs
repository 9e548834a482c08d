//! What the contracts say. A contract stands in a comment, folded, as it is proved of the source, which is written in Rattle: `requires` is what a caller has to show there, `ensures` what it then knows. Nothing checks either here.
//!
//! `docs/READING.md` of the repository reads some of them aloud.
//!
//! # Terms
//!
//! | Word | Meaning |
//! |---|---|
//! | to draw | to call `next` or `next_back` on the source |
//! | an answer | what that returned: an item, `Ok(Some(x))`; a failure, `Err(e)`; or an end, `Ok(None)`, after which others may come |
//! | lists l | yields exactly l up to its first end (`Lists`); in l an item is `Ok x`, a failure `Err e` |
//! | lists l, fused | also returns `Ok(None)` at each later call (`ListsForGood`) |
//! | list word | a function on such lists, as `filtered` |
//! | held | buffered: taken from the source, or made of that, and not yielded yet |
//! | due | the next answer, which comes without a draw |
//! | lost | drawn, and yielded by nothing any more |
//! | what is left | the iterator after the call |
//! | a step | a value, the answer of one draw, and the value after it |
//! | a run; its trace | draws one after another, `Run steps s trace t`; their answers |
//! | a bound | a number: no run has more items; what has one is *finite* |
//! | a turn | what a fold does with one item: it changes the state, and may stop the fold |
//!
//! # Signs
//!
//! | Sign | Read it as |
//! |---|---|
//! | `self`; `self.now` | the value; what a `&self` points to |
//! | `self.old`, `self.new` | what a `&mut self` points to at the call, and at the return; so `it.old` of any parameter |
//! | `v.items` | the elements of a `Vec` |
//! | `f x y`; `λ x. e` | f called on x and y; the closure `\|x\| e` |
//! | `a % b`, `a ^ b` | remainder, power |
//! | `a ≡ b`, `¬ A` | a equals b; not A |
//! | `A ↔ B` | A if and only if B |
//! | `A × B`, `A ⊎ B` | A and B, of two types their pairs; A or B |
//! | `A → B`; `⊤`, `⊥` | if A then B; true, false |
//! | `(x : T) → P x`; `(x : T) × P x` | for every x of the type T, P x; there is an x with P x |
//! | `ℕ` | the numbers from 0 on; each unsigned integer is seen as one |
//! | `Type 0` | after a parameter, as in `{S A E : Type 0}`: any type; at the end of a word's type: the word is a proposition |
//! | `[]`, `x ∷ l`, `a ++ b` | the empty list, x before the list l, two lists joined |
//! | `contract.steps`, `I.contract.steps` | the steps of this type, of the type parameter I |
//! | `F.FnMut` | what the type F says of its calls |
//! | `ensures value { .. }` | a clause with a name, by which a proof cites it |
//!
//! # Words
//!
//! Those that the contracts of this crate name, each with the sentence of its definition. `docs/INDEX.md` of the repository has all.
//!
//! | Word | Sentence |
//! |---|---|
//! | `Acts` | The closure f acts as the function h: called on x it returns h x, and stays as it is. |
//! | `ActsWith` | The closure f acts as the function h on a value and an item: it returns h of them, and stays as it is. |
//! | `added` | the total of the items from `start` on, or the first failure |
//! | `AddedDrains` | The draws from s returned items and then an end or a failure, by which the total from `start` on is r. |
//! | `AddsValue` | The closure is called on the last value of the pair's key and the pair's item, and what it returns comes last, beside that key. |
//! | `all_of` | whether h x is true of each item x |
//! | `AllUniqueAs` | What `all_unique` returns over the list: what `are_unique` says, or an allocation failure. |
//! | `AllUniqueDrains` | The draws from s up to an end, a failure, an item that equals one before it, or one that there was no room for in the set of those before it, returned r and left t. |
//! | `any_pick` | `any` goes on if the predicate is false, and returns true if it isn't |
//! | `asked_closure` | the closure, of a state that is what is held and a closure |
//! | `at_most_one_of` | the item, if there is one; the first two where there are more; or the failure that comes before these |
//! | `at_once`, `by_call` | a step that calls nothing, and one that calls on the item |
//! | `AtMost` | at most k items are still to come of s: k is a bound of it, or one that is no greater is |
//! | `AtMostOneDrains` | At most two draws from s, up to an end, a failure or the second item, returned r and left t. |
//! | `before_stop` | what is emitted at a stop: the item that is held, after which the stop is due; or the stop, where none is held |
//! | `borrowed` | A borrowed iterator steps as the one that it points to, and stays the same reference. |
//! | `borrowed_looks` | what is borrowed looks as it does itself, and stays the same reference |
//! | `both_of` | the items, if there is one of each |
//! | `BothBegun` | The left side is s, and the right side what `other` becomes. The end of neither was met, and the state is t. |
//! | `bounded` | The contract of a source at whose draws nothing may be emitted, however often: it requires a bound besides. |
//! | `BoundsAddUp` | The bounds of all sources, added up, are at most n. |
//! | `call_at_both` | one call on references to an item of each side, which may return so and leave the closure so |
//! | `call_at_two` | one call on references to two items, which may return so and leave the closure so |
//! | `call_by_reference` | one call on a reference to an item |
//! | `call_by_value` | one call on an item itself, which may return so and leave the closure so |
//! | `call_of_none` | one call of the closure, which takes nothing |
//! | `call_on_two` | one call on two items |
//! | `call_with` | one call on the value so far and an item, which may return r and leave the closure as f' |
//! | `CallableDriving` | a turn may be taken on the state and each item that may come |
//! | `CallableInFold` | the closure may be called on the value so far and each item that may come |
//! | `CallableInRounds` | P holds of each two items that may come in one round, after rounds whose turns went on, with what they made by then |
//! | `CallableInSearch` | the closure may be called on each item that may come after items on which the search goes on |
//! | `CallableOnAny` | the closure may be called on any two items, in each state that calls bring it to |
//! | `CallableStepping` | each step may make its call, on each item that may come |
//! | `calls_nothing` | nothing is called |
//! | `CallsMakeShown` | In whatever state it is, the closure's next call returns the first of what that state shows, `shows f 0`, and the calls after it return the others in order. |
//! | `checked_folds` | each pair, or in its place the failure with which the fold of its key's values, those of the pairs before and its own, fails |
//! | `chunk_by_contract` | `ChunkBy`'s contract. Its condition: one of the source, a bound of it, and that the closure may be called on what comes. |
//! | `chunk_by_parts` | the source, the group that is held beside the key's closure, and the stop that is due |
//! | `chunk_by_plan` | The key's closure is called on each item. |
//! | `chunk_by_stops` | At a stop the group that is held comes first. |
//! | `chunked` | the items in batches of n, of which one before a failure and the last may have fewer |
//! | `chunked_by` | the adjacent items with equal keys, as h makes them, each group with its key; before a failure of the list or of h comes the group that is held, so a failure parts groups |
//! | `chunks_contract` | `Chunks`' contract. It requires no bound of the source: one draw leaves out fewer items than a batch has. |
//! | `chunks_parts` | the source, beside the size the batch that is held, whether the last one was whole, and the stop that is due |
//! | `coalesce_call`, `coalesce_takes` | a call on both; and where it may be made |
//! | `coalesce_contract` | `Coalesce`'s contract |
//! | `coalesce_parts` | the source, what is held beside the closure, and the stop that is due |
//! | `coalesce_plan` | An item is held, and the closure is called on it and the next one. |
//! | `coalesced` | Adjacent items x and y put together where h x y is one item, which goes on in their place. Before a failure comes the item that is held, so a failure parts them. |
//! | `collected` | the list of the items, or the first failure |
//! | `CollectedAs` | What `collect` returns over the list. |
//! | `CollectedUntilAs` | What `collect_until_failure` returns over the list. |
//! | `Collects` | What `collect` returns: the collection of all items up to an end; the first failure; or an allocation failure, if creating an empty collection may fail, or an item was rejected. |
//! | `CollectsInPlace` | The items of the draws from s, collected and then sorted in place. |
//! | `CollectsSorted` | The items of the draws from s, collected and then sorted. |
//! | `CollectsUntil` | The draws from s returned items and a last answer, and left t: the result is the collection of the items, and beside it the failure, if that was the last answer; or an allocation failure, if creating an empty collection may fail, or the last item was rejected. |
//! | `comes_after` | whether a key may come after the last one: where there is none, and where the last one is less or equal |
//! | `CompareByDraws` | Both sides yielded pairs of items, on which the turns went on, one by one; then came the last round, which decided. |
//! | `compared` | how two lists compare, pair by pair: the first two items that the rule doesn't find equal decide, and a list that ends before the other is less; or the failure that comes first, of the first list before that of the second |
//! | `ComparedByWith` | The other value became an iterator, as `into` allows, and the comparison with it had this result. |
//! | `ConsumedBy` | Some draws from s make r so. |
//! | `Consumes` | The draws from s returned items and a last answer, and left t, by which the steps make r. |
//! | `contained` | whether an item equals the wanted one; or the failure that comes before such an item |
//! | `ContentsOf` | The list has no failure and the collection is one of its items, or the source's failure that was returned is the list's first. |
//! | `Converted` | One draw, whose answer is converted. |
//! | `Converts` | Failures convert as the function does. |
//! | `ConvertsTo` | An answer becomes another one: a failure becomes what it is converted to; an item and an end stay. |
//! | `copied_contract` | `Copied`'s contract. It requires nothing more than the source, and has the source's hint. |
//! | `copied_parts` | the source, and nothing else |
//! | `count_plan` | The first of items that are the same is held with their number. A call on it and the next item says whether they are the same. |
//! | `count_stops` | At a stop what is held comes, and nothing is held then. |
//! | `counted` | the number of items, or the first failure |
//! | `dedup_by_contract` | `DedupBy`'s contract |
//! | `dedup_by_key_contract` | `DedupByKey`'s contract |
//! | `dedup_by_key_parts` | the source, what is held beside the closure, and the stop that is due |
//! | `dedup_by_parts` | the source, what is held beside the closure, and the stop that is due |
//! | `dedup_by_plan` | The first of items that are the same is held. The closure is called on it and the next one. |
//! | `dedup_by_with_count_contract` | `DedupByWithCount`'s contract: the closure may be called on references to what is held and each item that may come. |
//! | `dedup_by_with_count_parts` | the source, what is held beside the closure, and the stop that is due |
//! | `dedup_contract` | `Dedup`'s contract |
//! | `dedup_key_plan` | The first of items with equal keys is held, with its key. The closure is called once on each item. |
//! | `dedup_key_stops` | At a stop the held item comes, and nothing is held then. |
//! | `dedup_parts` | the source, the item that is held, and the stop that is due |
//! | `dedup_stops` | At a stop the held item comes, and nothing is held then. |
//! | `dedup_with_count_contract` | `DedupWithCount`'s contract |
//! | `dedup_with_count_parts` | the source, the item that is held with its number, and the stop that is due |
//! | `deduped` | the first of adjacent equal items; a failure parts them |
//! | `deduped_by` | Of adjacent items x where h y x is true, y the last item that is kept, y alone; where h fails, its failure in the place of x. Before a failure comes the item that is held, so a failure parts them. |
//! | `deduped_by_key` | The first of adjacent items with equal keys, which h makes; where h fails, its failure in the item's place. Before a failure comes the item that is held. |
//! | `deduped_by_with_count` | Each item that `deduped_by` lists beside the number of adjacent items that are left out for it, with itself; a number above the greatest `usize` is that one. |
//! | `deduped_with_count` | the first of adjacent equal items, beside their number; a failure parts them |
//! | `DrawsUpTo` | draws up to the first at which an answer is emitted |
//! | `Driven` | The draws from s returned items and a last answer, and left t, by which the fold from the state c on returns r and leaves d. |
//! | `due_gives` | What is due is an answer, or, where it is none, ends from then on. Here the answer, and what is due after it. |
//! | `duplicates_came` | the map, which has the first of equal items |
//! | `duplicates_contract` | `Duplicates`' contract: its hint has the source's upper bound alone. |
//! | `duplicates_of` | the items that equal exactly one before them; failures stay, and part nothing |
//! | `duplicates_parts` | the source, and the map |
//! | `duplicates_source` | the source |
//! | `Each` | P holds of each. |
//! | `EachLists` | Each source lists the list at its place. |
//! | `EitherRefused` | The collection of its side rejects the value. |
//! | `enumerate_contract` | The contract of `Enumerate`. `next` may be called where it may be on the source and the numbers of all items to come fit a `usize`. What may still come is an item that the source may give, with a number from the next one on, below each bound of those to come. |
//! | `enumerate_parts` | the source, and the number of the next item |
//! | `equal_by` | whether two lists are as long and h is true of each two items; or the failure that comes first |
//! | `equal_flow` | The first item is kept. An item that it doesn't equal stops the fold. |
//! | `equal_to_first` | whether the first item equals each later one; or the failure that comes before one that it doesn't equal |
//! | `equal_value` | the first item, if it equals each later one; or it and the first one that it doesn't equal; or nothing of no items; or the failure that comes before |
//! | `err_into_contract` | `ErrInto`'s contract. It requires nothing more than the source; all else is the source's. |
//! | `err_into_parts` | the source, and nothing else |
//! | `failures_listed` | the items of a list, in order, and its failures |
//! | `failures_mapped` | h e in the place of each failure e |
//! | `failures_mapped_from` | h n e in the place of each failure e, where n is its index, and n the first one's |
//! | `find_flow` | an item that passes stops the fold, and where it goes on `keep` says what is kept |
//! | `find_pick` | `find` returns the first item for which the predicate is true |
//! | `find_position_pick` | `find_position` returns the first item for which the predicate is true, beside the number of items before it |
//! | `first_kept` | what is kept where x comes: the item before, if there is one |
//! | `first_or_both` | the first item alone, or beside the one that it doesn't equal, or nothing where no item came; or the failure |
//! | `first_two` | the first two items, where there were more than one |
//! | `FoldDrains` | The draws from s returned items and a last answer, and left t, by which the fold with f from b on returns r. |
//! | `folded` | the value that h makes of the value so far and each item, or its first failure, or the list's first, converted |
//! | `folded_while` | the value that h makes of the value so far and each item, up to the item at which it is done; or the failure of the list or of h that comes first |
//! | `FoldedByKeyAs` | What `fold_by_key` returns over the list: the map of the folds, or the first failure of the list or of a fold; an allocation failure says nothing of the list. |
//! | `FoldsByKey` | What `fold_by_key` returns: the map after all pairs up to an end; the first failure of the source or of the closure; or an allocation failure, where the map rejected a new key. |
//! | `FoldWhileDrains` | The draws from s returned items and a last answer, and left t, by which the fold with f from b on returns r: the last value at an end; the value with which the closure is done; the failure. |
//! | `for_each_pick` | `for_each` goes on at each item |
//! | `found` | the first item x for which h x is true, if there is one |
//! | `found_or_first` | the first item x for which h x is true, and the first of all where there is none; or the failure of the list or of h that comes before |
//! | `found_or_last` | the first item x for which h x is true, and the last item where there is none; or the failure of the list or of h that comes before |
//! | `from_back` | the contract of draws from the back |
//! | `from_front` | the contract of draws from the front, where draws from the back are made as well |
//! | `fuse_at_failure_contract` | `FuseAtFailure`'s contract: that of its source but for the step and the hint, which the source's failure closes. |
//! | `fuse_at_failure_parts` | the source, and whether it failed |
//! | `fused_contract` | the contract of a fused source |
//! | `gathered` | the collection at an end, the failure, or the allocation failure that the fold stopped with |
//! | `goes_on` | one turn that went on |
//! | `GroupRefuses` | No key equals the pair's, or the `Vec` of that key has no capacity left. |
//! | `HasItems` | The vector has the items and no other, each as often as they have it. |
//! | `HasItemsInOrder` | The vector has the items, in order by themselves. |
//! | `HasItemsInOrderByCalls` | The vector has the items, whatever the closure f returns. If f makes keys as a function does, it has them in the order of their keys. |
//! | `HasItemsInOrderByComparisons` | The vector has the items, whatever the closure f returns. If f compares as a strict weak order does, it has them in that order. |
//! | `HasItemsInOrderByKey` | The vector has the items, in the order of their keys. |
//! | `HasItemsInOrderByTest` | The vector has the items, and none is less than one before it by the test lt. Nothing is said of which comes first of two of which neither is less. |
//! | `HasSecondCloned` | a pair of the first of p itself and a clone of the second |
//! | `held_hint` | Of the source's hint, where one is held or none: at least one if the source has one for certain or one is held, and at most what the source has and what is held, where that fits. |
//! | `hint_unless_end` | Where an end is due, no item comes before it. Otherwise the hint is made of the source's, also where a failure is due, after which more may come. |
//! | `HoldsAtEachTurn` | P holds of each item that may come after items on which the turns went on, with what they made by then |
//! | `IfItem` | where the answer is an item, P holds of it |
//! | `in_order` | whether no item is less than the one before it; or the failure that comes before such an item |
//! | `in_order` | the items in order: none is less than one before it, and equal ones keep theirs |
//! | `in_order_by` | whether h is true of each two adjacent items; or the failure of the list or of h that comes before two of which it isn't |
//! | `in_order_by_key` | whether the keys that h makes of the items never go down; or the failure of the list or of h that comes before one that does |
//! | `inclusive_contract` | `TakeWhileInclusive`'s contract: the predicate may be called on each item that may come. |
//! | `inclusive_parts` | the source, the predicate, and whether ends are due |
//! | `inclusive_plan` | Nothing is held. The predicate is called on each item. |
//! | `index_call` | one call on an index and the failure beside it |
//! | `index_contract` | the contract: it is known how many are left, and which |
//! | `index_takes` | the closure may be called on the index and the failure |
//! | `inspect_err_contract` | `InspectErr`'s contract: the closure may be called on a reference to each failure that may come; all else is the source's. |
//! | `inspect_err_parts` | the source and the closure |
//! | `interleave_contract` | `Interleave`'s contract: both sides are drawn in turn; their bounds are added up, and so is what remains. |
//! | `interleave_left` | the left side |
//! | `interleave_left_ended` | whether the left's end was met |
//! | `interleave_parts` | both sides, fused, and whether it is the right's turn |
//! | `interleave_right` | the right side |
//! | `interleave_right_ended` | whether the right's end was met |
//! | `interleave_right_next` | whether it is the right's turn |
//! | `interleaved` | an answer of the first list and one of the second in turn, and the rest of the longer one; a failure takes a turn, as an item does |
//! | `intersperse_contract` | `Intersperse`'s contract: an item of the source is two to come. |
//! | `intersperse_parts` | the source, whether an item came beside the separator, and the item that is due |
//! | `intersperse_plan` | Whether an item came is held. The first item is yielded; before each later one a separator is made. |
//! | `intersperse_with_contract` | `IntersperseWith`'s contract: an item of the source is two to come. The closure may be called wherever items that may come bring it. |
//! | `intersperse_with_parts` | the source, whether an item came beside the closure, and the item that is due |
//! | `interspersed` | a list with an item s between each two adjacent items of it |
//! | `interspersed_by` | A list with a separator between each two adjacent items of it: h 0, h 1 and so on, each an item or a failure. A failure of the list stands in its place, and parts nothing. |
//! | `is_done_at` | whether the fold is done |
//! | `IsCallable` | In each state that calls on arguments of which P holds bring f to, it may be called on each such argument. |
//! | `IsCmpTurn` | One call on two items, as a turn: it goes on where they are equal, and stops with their order, or the closure's failure. |
//! | `IsCountsOf` | The map has the items, of equal ones the first, each beside the number of times that it comes. |
//! | `IsEqTurn` | One call on two items, as a turn: it goes on where they are equal, and stops with no order, or the closure's failure. |
//! | `IsGroupMapOf` | The map has the pairs' keys, of equal ones the first, each beside a `Vec` of its values in order. |
//! | `IsKeyFoldOf` | The map has the pairs' keys, of equal ones the first, each beside the fold of its values in order. |
//! | `IsNumberable` | The source may be drawn from, and the numbers from n on of all items to come fit a `usize`. |
//! | `IsSmallestOf` | The vector has the first k of all items, in order: none of these is less than one before it, and equal ones keep their order. |
//! | `IsSortedByCalls` | The vector has the items, whatever the closure f returns. If f makes keys as a function does, it has them in the order of their keys. |
//! | `IsSortedByComparisons` | The vector has the items, whatever the closure f returns. If f compares as a strict weak order does, it has them in that order. |
//! | `IsSortedByKeyOf` | The vector has the items. The key of none is less than that of one before it, and items of equal keys keep their order. |
//! | `IsSortedByTest` | The vector has the items. None is less than one before it by the test lt, and items of which neither is less keep their order. |
//! | `IsSortedOf` | The vector has the items, in order by themselves: each item is its own key. |
//! | `IsTailOf` | The queue has the last n of the items, in order, or all if there are fewer. |
//! | `IsTreeOf` | the tree of the sources in order, of which nothing was drawn: the first half of them on the left and the others on the right |
//! | `item`, `failure` | An answer is what one draw returns: an item, `Ok (Some x)`, a failure, `Err e`, or an end, `Ok None`. |
//! | `item_flow` | The item is its own key. |
//! | `items` | each an item |
//! | `JoinedAs` | If each item is shown as `show` says, the text is that of the items. |
//! | `kept` | the answers that are kept, without their numbers |
//! | `KeptByDraws` | What `KeptByDraw` says, after any number of draws, from whichever end they were made. |
//! | `key_flow` | The fold goes on where the key may come after the last one, and keeps it. |
//! | `keyed` | each item x beside the key that h makes of it, or the failure of h in its place |
//! | `keyed_contract` | `Keyed`'s contract. It has the source's hint. |
//! | `kmerge_by_contract` | `KMergeBy`'s contract: the closure says which of two items goes first. |
//! | `kmerge_by_parts` | the tree, and the closure |
//! | `kmerge_contract` | `KMerge`'s contract: that of `KMergeBy`, by the order. |
//! | `kmerge_parts` | the tree |
//! | `kmerged` | one list as it is, and of more lists what the first half of them comes to, merged with what the others come to |
//! | `kmerged_in_order` | the lists merged as `kmerged` says: x of an earlier list goes before y of a later one where x is less than y or equal |
//! | `last_kept` | what is kept where x comes: x |
//! | `last_position_in` | how many items stand before the last item x for which h x is true, if there is one; or the failure that comes first: from the back up to that item, and then from the front |
//! | `last_value` | the last value that stands beside an equal key, `init` if there is none |
//! | `least_and_greatest` | the least item and the greatest, which of one item is the same |
//! | `left_ended` | whether the left's end was met |
//! | `left_of` | the item of the left, if there is one |
//! | `less_by` | whether x is less than y by the order |
//! | `Lists` | The answers of s, up to its first end, list l. |
//! | `ListsBothEnds` | s lists l from both ends: for any number of draws. |
//! | `ListsForGood` | The answers of s list l, and each further one is an end. |
//! | `ListsMade` | The answers of s, up to its first end, list l, with values made of its items; up to an allocation failure and what was buffered before it. |
//! | `ListsUnlessRefused` | The answers of s, up to its first end or allocation failure, list l, or its beginning where they end with that failure. |
//! | `ListsUntilRefused` | The answers of s, up to its first end or allocation failure, list l, with values made of its items; or its beginning where they end with that failure, which stands in the place of one of the list's. |
//! | `MadeGroup` | a group is made of a key and items: it has that key, and those items |
//! | `MadeOf` | There is a value in r, and the collection is made of it. |
//! | `MadeOfEithers` | The first collection is made of the values of each `Left`, and the second of those of each `Right`. |
//! | `map_contract` | `Map`'s contract: the closure may be called on each item that may come, and its hint is the source's. |
//! | `mapped` | h x in the place of each item x |
//! | `MayMeet` | the answer may still come of the source |
//! | `merge_by_contract` | `MergeBy`'s contract: an item of it is one of either side, and its hint is the sum of theirs, each with what is held. |
//! | `merge_by_parts` | each side, fused; and the state: what is held of each, and the closure |
//! | `merge_contract` | `Merge`'s contract: that of `MergeBy`, by the order. |
//! | `merge_join_by_contract` | `MergeJoinBy`'s contract: its hint has the greater lower bound of both sides, since two items may be yielded together, and the sum of the upper ones. |
//! | `merge_join_by_parts` | each side, fused; and the state: what is held of each, and the closure |
//! | `merge_joined` | the items of both lists, of which x of the first comes before y of the second where h x y is `Less`, after it where it is `Greater`, and together with it where it is `Equal`; a failure of either list stands where it is met, and one of h stands in the place of x and y |
//! | `merge_parts` | each side, fused, and what is held of each |
//! | `merged` | the items of both lists, of which x of the first goes before y of the second where h x y is true; a failure of either list stands where it is met, and one of h stands in the place of x and y |
//! | `merged_in_order` | the items of both lists, of which x of the first goes before y of the second where x is less than y or equal; a failure of either list stands where it is met |
//! | `MinMaxCall` | One item. The first is kept, without a call. At the second the closure is called on the first and the second. From then on it is called on the least and the item, and goes on as `AfterLeast` says. |
//! | `MinMaxDrains` | The draws from s returned items and then an end or a failure; the result is what the items make, or the failure. |
//! | `minmaxed` | nothing of no items, and the item of one; of more the first of the least ones and the last of the greatest ones; or the first failure |
//! | `minmaxed_by` | what is kept of the items one after the other, each by h beside those that are kept; or the failure of the list or of h that comes first |
//! | `minmaxed_by_key` | the first of the items with the least key and the last of those with the greatest, by the keys that h makes of them, as in `minmaxed`; or the failure of the list or of h that comes first |
//! | `MinMaxKeyCall` | One item: the closure makes its key, and the keys compare. |
//! | `MinMaxKeyDrains` | The draws from s and the calls of the closure, one an item, by which the result is what is kept at last, without the keys; or the first failure. |
//! | `nth_of` | the item with n items before it, or the failure or the end that comes first |
//! | `NthDrains` | The draws from s returned the skipped items and then r, the first answer that is the item with n items before it, a failure, or an end. They left t. |
//! | `OneIsFinite` | One of the two sides is finite: the left, or whatever the other value may become. |
//! | `OneOrBoth` | what a closure returns for two items: one to go on in their place, or two that stay apart; or a failure |
//! | `only_left` | the item of the left, if there is none of the right |
//! | `only_right` | the item of the right, if there is none of the left |
//! | `or_else_contract` | `OrElse`'s contract: the source is finite and what remains of it has a bound, and the closure may be called on each failure that may come. |
//! | `or_else_parts` | the source and the closure |
//! | `or_less` | an order by which equal ones are less, so that of equal ones the first is the least |
//! | `ordered_by` | how two lists compare by the orders that h returns for two items; there is always one |
//! | `OverBoth` | Over a source that lists a, and beside it another one that lists b, whatever a value becomes by `into`, P a b. |
//! | `OverList` | Over a source that lists l, P l. |
//! | `OverListWith` | Over a source that lists l, and with a function h as which a closure acts, P h l. |
//! | `pad_using_closure` | the closure |
//! | `pad_using_contract` | `PadUsing`'s contract: the source beside the indices below n; its hint has the greater bounds of both. |
//! | `pad_using_ended` | whether the source's end was met |
//! | `pad_using_indices` | the index of the next item, and n |
//! | `pad_using_parts` | the source, fused; the index of the next item, and n; and the closure |
//! | `pad_using_source` | the source |
//! | `padded` | The list, and then h i for each index i below n that no item has. A failure of the list counts as no item. |
//! | `pair_step` | The closure is called on the last item, if one came, and the next. |
//! | `parted_step` | One draw of the source: its item as a `Left`, its failure as a `Right`, its end as an end. |
//! | `PartitionedFailuresAs` | What `partition_failures` returns over the list. |
//! | `parts_as` | the contract of a struct by its parts: its definition is that of the parts |
//! | `passes` | a stop passes, and what is held stays |
//! | `PassesNoneOver` | where p is held, something is emitted at each answer |
//! | `peeking_closure` | the closure |
//! | `peeking_contract` | The contract: the closure may be called on each item that may come, and the hint has the source's upper bound alone. |
//! | `peeking_parts` | the source and the closure |
//! | `peeking_source` | the source |
//! | `peeking_step` | One answer: that of one place, with the closure called on its item. |
//! | `place_of` | the number beside the item found, if one was |
//! | `PlacedFromBack` | The predicate was called on the items from the back, up to the first for which it is true. Then what was left was counted from the front. |
//! | `PlaceDrains` | The draws from s, whose items are numbered from 0 on, and the comparisons by which the result is the number of the best. |
//! | `plan_can` | the closure may be called wherever what it was called on and what may come bring it |
//! | `pointed_to` | what each item points to, in its place |
//! | `position_found` | the first item x for which h x is true, beside the number of items before it, if there is one; or the failure of the list or of h that comes before |
//! | `position_greatest` | how many items come before the greatest, of equal ones before the last, and nothing of no items; or the first failure |
//! | `position_least` | how many items come before the least, of equal ones before the first, and nothing of no items; or the first failure |
//! | `position_pick` | `position` returns how many items stand before the first for which the predicate is true |
//! | `positioned` | each item with its position among the items there; a failure parts them |
//! | `positions_contract` | `Positions`' contract, over the source that numbers its items: its hint has that one's upper bound alone. |
//! | `positions_parts` | the source, which numbers its items, and the closure |
//! | `positions_source` | the source, which numbers its items |
//! | `positions_where` | of each item x for which h x is true how many items come before it, and each failure of the list and of h |
//! | `puts_by_key` | The closure is called once, and an item with a key is put after those of its group. |
//! | `read_as` | what a comparison's answer is read as, where it isn't a failure |
//! | `reads_eq` | whether there is an order, and it is less; less or equal; greater; greater or equal; equal; and whether it isn't equal |
//! | `recovered` | h d in the place of each failure d: an item, nothing where h d is none, or another failure |
//! | `rest_contained` | what stands after the first item that equals the wanted one, or after the failure that comes first |
//! | `rest_failed` | what a fold leaves at an item: what comes after it if h fails |
//! | `rest_failure` | what comes after the first failure; nothing if there is none |
//! | `rest_nth` | what comes after the item with n items before it, or after the failure that comes first |
//! | `rest_position` | what `rposition` leaves: what stands before the failure that comes first from the back; or, if h x is true of an item x, what stands before the last such item and after the first failure there |
//! | `rest_repeated` | what stands after the first item that equals one before it, or after the failure that comes first |
//! | `rest_true` | what `find`, `any` and `position` leave: what comes after the first item x for which h x is true |
//! | `rest_try_each` | what `try_for_each` leaves: what comes after the first item on which h fails, or after the failure of the list that comes first |
//! | `rest_try_true` | what `try_find` and `try_position` leave: what comes after the first item x for which h x is true or fails, or after the failure of the list that comes first |
//! | `rest_unequal` | what stands after the first item that the first of all doesn't equal, or after the failure that comes first |
//! | `rest_while` | what `fold_while` leaves: what comes after the first item at which h, called on the value so far and that item, is done or fails; or after the failure of the list that comes first |
//! | `right_ended` | whether the right's end was met |
//! | `right_of` | the item of the right, if there is one |
//! | `right_source` | the right side |
//! | `rule_meets` | what is emitted at an answer of the source |
//! | `same_call`, `same_takes` | a call on references to both; and where it may be made |
//! | `SearchDrains` | The draws from s returned items and a last answer, and left t, by which the search with f returns r and leaves it as g. |
//! | `searched` | What a search returns that calls h on the items in order, the first of which has n items before it: what `pick` makes of the first result of which it makes something, or a failure of the list or of h that comes before; `none` if there is neither. |
//! | `seen_as` | the contract of a type whose values are seen as those of another |
//! | `seen_call` | one call on a reference to a failure, which stays as it is |
//! | `SmallestRefuses` | One more item takes an allocation: the vector has fewer than k items, and no more room. |
//! | `SortedInPlace` | What becomes of the vector that `collect` returned: one that `sorts` says has its items, in order. It never fails. A failure stays. |
//! | `SortedThen` | What becomes of the vector that `collect` returned: one that `sorts` says is sorted of its items; or an allocation failure, where it has more than twenty. A failure stays. |
//! | `stage_step` | One answer: what is due, without a draw, or what is emitted at draws. |
//! | `Stays` | What `KeptByDraws` says, after any number of draws from one end; and what can never fail can't fail afterwards. |
//! | `stop_after_contract` | `StopAfter`'s contract. Its number bounds the items, so that and how many failures are still to come bound both together. |
//! | `stop_after_items` | how many items it still yields at most |
//! | `stop_after_parts` | the source, how many failures are still to come, and the bound of the items |
//! | `stop_answer` | A stop is an end, `None`, or a failure, `Some e`: this answer. |
//! | `stop_or` | what the fold stopped with, or `none` |
//! | `stop_or_kept` | what the fold stopped with, or what is kept |
//! | `stopped_after` | up to and with the n-th failure; items don't count |
//! | `StopsWith` | what `fold_while` stops with, from what the turns' fold returned and the value that this left |
//! | `TailRefuses` | One more item takes an allocation: the queue has fewer than n items, and no more room. |
//! | `taken_while` | up to the first item x for which h x is false, without it; where h x is a failure, that failure in the place of x |
//! | `taken_while_inclusive` | up to and with the first item x for which h x is false; where h x is a failure, that failure in the place of x |
//! | `takes_at_both` | the closure may be called on references to these two |
//! | `takes_at_two` | the closure may be called on references to these two |
//! | `takes_beside` | the closure may be called on what is kept and the item: on the least, and then on the greatest, if the least isn't greater than the item |
//! | `takes_by_reference` | the closure may be called on a reference to the item |
//! | `takes_by_value` | the closure may be called on the item |
//! | `takes_key` | the closure may be called on the item |
//! | `takes_none` | the closure may be called |
//! | `takes_with` | the closure may be called on the value so far and an item |
//! | `TakesAll` | The adapter may be called on each item that may come, in each state that what it meets brings it to. |
//! | `times` | how many of the items equal k, if any does |
//! | `total_by` | what a checked total returns, from what its fold returned and the total that it left |
//! | `TotalDrains` | The draws from s returned items and a last answer, by which the total from `start` on is r. |
//! | `totalled` | The total of the items from t on, if it fits with each of them; none if it overflows with an item that comes before any failure; or the first failure. |
//! | `try_each_done` | what `each_done` makes of the list with its failures converted: nothing, or the failure of the list or of h that comes first |
//! | `try_found` | what `found` makes of the list with its failures converted: the first item x for which h x is true, if there is one |
//! | `try_position_in` | what `position_in` makes of the list with its failures converted: how many items stand before the first item x for which h x is true, if there is one |
//! | `tuple_windows_contract` | `TupleWindows`' contract. It requires no bound of the source: one draw leaves out one item at most. |
//! | `tuple_windows_parts` | the source, and the item that is held |
//! | `tupled` | the items two by two, without the last of an odd number; a failure stands in its place, and parts nothing |
//! | `tuples_contract` | `Tuples`' contract: of the items of the source every second one counts in the hint. It requires no bound of the source: one draw leaves out one item at most. |
//! | `tuples_parts` | the source, and the item that is held |
//! | `turns` | The state is whether it is the right's turn; nothing is held. |
//! | `two_in_order` | what is kept of two items by their order: of equal ones the first is the least |
//! | `unique_by_closure` | the closure |
//! | `unique_by_contract` | `UniqueBy`'s contract: its hint has the source's upper bound alone. |
//! | `unique_by_key` | The first item of each key, which h makes; where h fails, its failure in the item's place. Failures stay, and part nothing. |
//! | `unique_by_keys` | the set, which has the keys of the items that were yielded |
//! | `unique_by_parts` | the source, and the set beside the closure |
//! | `unique_by_source` | the source |
//! | `unique_contract` | `Unique`'s contract: its hint has the source's upper bound alone. |
//! | `unique_of` | of equal items the first: the first of each key, where an item is its own key; failures stay, and part nothing |
//! | `unique_or_fault_of` | what the call returns, from what its fold returned |
//! | `unique_parts` | the source, and the set |
//! | `unique_seen` | the set, which has clones of the items that were yielded |
//! | `unique_source` | the source |
//! | `up_to_failure` | up to and with the first failure |
//! | `value_of` | the value |
//! | `wanted_flow` | Nothing is kept. An item that equals the wanted one stops the fold. |
//! | `wanting_one` | the only item, if there is one; a `NotOne` if there is none or there are two; or the failure |
//! | `WentOn` | One call of the closure, after which the search goes on, whatever number of items came before. |
//! | `whether_stopped` | whether the fold stopped, or whether it didn't |
//! | `while_answer` | what `fold_while` returns: `Ok` of a value goes on with it, `Err` stops |
//! | `WhileCall` | one call on the value so far and an item |
//! | `windowed` | each two adjacent items; a failure stands in its place, and parts nothing |
//! | `with_index_contract` | `MapErrWithIndex`'s contract: the closure may be called on each failure that may come, with any index; all else is the source's, its hints too. |
//! | `with_index_parts` | the source and the index of what comes next, and the closure |
//! | `with_position_contract` | `WithPosition`'s contract. It requires no bound of the source: one draw leaves out one item at most. |
//! | `with_position_parts` | the source, the item that is held with whether one came before it, and the stop that is due |
//! | `without_source` | the result where the source never fails |
//! | `zip_eq_contract` | `ZipEq`'s contract: its hint has the smaller bounds of both sides. |
//! | `zip_eq_parts` | each side, fused; and the state: what is held of the left, and the closure |
//! | `zip_longest_contract` | `ZipLongest`'s contract: its hint has the greater bounds of both sides. |
//! | `zip_longest_parts` | each side, fused; and what is held of the left |
//! | `zipped_equal` | the items of both lists place by place, as `zipped_longest` has them, where e stands for each item that has no partner |
//! | `zipped_longest` | the items of both lists place by place, and those of the longer one alone; a failure of either stands where it is met, and an item of the first list beside a failure of the second one stands beside the next item of it |
