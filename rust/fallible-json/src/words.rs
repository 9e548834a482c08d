//! What the contracts say. A contract stands in a comment, folded, as it is proved of the source, which is written in Rattle: `requires` is what a caller has to show there, `ensures` what it then knows. Nothing checks either here.
//!
//! `docs/READING.md` of the repository reads some of them aloud.
//!
//! # Terms
//!
//! | Word | Meaning |
//! |---|---|
//! | to draw | to call `next` or `next_back` on the source |
//! | an answer | what that returned: an item, `Ok(Some(x))`; a failure, `Err(e)`; or an end, `Ok(None)`, after which others may come |
//! | lists l | yields exactly l up to its first end (`Lists`); in l an item is `Ok x`, a failure `Err e` |
//! | lists l, fused | also returns `Ok(None)` at each later call (`ListsForGood`) |
//! | list word | a function on such lists, as `filtered` |
//! | held | buffered: taken from the source, or made of that, and not yielded yet |
//! | due | the next answer, which comes without a draw |
//! | lost | drawn, and yielded by nothing any more |
//! | what is left | the iterator after the call |
//! | a step | a value, the answer of one draw, and the value after it |
//! | a run; its trace | draws one after another, `Run steps s trace t`; their answers |
//! | a bound | a number: no run has more items; what has one is *finite* |
//! | a turn | what a fold does with one item: it changes the state, and may stop the fold |
//!
//! # Signs
//!
//! | Sign | Read it as |
//! |---|---|
//! | `self`; `self.now` | the value; what a `&self` points to |
//! | `self.old`, `self.new` | what a `&mut self` points to at the call, and at the return; so `it.old` of any parameter |
//! | `v.items` | the elements of a `Vec` |
//! | `f x y`; `λ x. e` | f called on x and y; the closure `\|x\| e` |
//! | `a % b`, `a ^ b` | remainder, power |
//! | `a ≡ b`, `¬ A` | a equals b; not A |
//! | `A ↔ B` | A if and only if B |
//! | `A × B`, `A ⊎ B` | A and B, of two types their pairs; A or B |
//! | `A → B`; `⊤`, `⊥` | if A then B; true, false |
//! | `(x : T) → P x`; `(x : T) × P x` | for every x of the type T, P x; there is an x with P x |
//! | `ℕ` | the numbers from 0 on; each unsigned integer is seen as one |
//! | `Type 0` | after a parameter, as in `{S A E : Type 0}`: any type; at the end of a word's type: the word is a proposition |
//! | `[]`, `x ∷ l`, `a ++ b` | the empty list, x before the list l, two lists joined |
//! | `contract.steps`, `I.contract.steps` | the steps of this type, of the type parameter I |
//! | `F.FnMut` | what the type F says of its calls |
//! | `ensures value { .. }` | a clause with a name, by which a proof cites it |
//!
//! # Words
//!
//! Those that the contracts of this crate name, each with the sentence of its definition. `docs/INDEX.md` of the repository has all.
//!
//! | Word | Sentence |
//! |---|---|
//! | `begin` | the state before the first token: a value is wanted |
//! | `BeginWithLeft` | Bytes begin with those that were left. |
//! | `checked` | The tokens from a state on that may stand where they stand, without the separators, up to the first fault: of their source, of a token that may not stand there, or of the end. |
//! | `ComesFrom` | The bytes are those that are wanted, or the fault is that; want of memory says nothing. |
//! | `ComesTo` | What an outcome says of the input, and of what was written. `Ok`: all of it was read, it has no fault, and its texts were written, each on a line, and nothing else. `Input`: its first fault is this, of the text with this number; what is printed before it was written. `Read`: a read failed, or too many bytes came; what is printed of those before was written. `Memory`: a read failed for want of memory, or the maker had none; what was written is some of that. `Write`: writing failed. |
//! | `Fails` | Reading failed so: bytes were read, and then a read failed with this kind, which is no interruption; or it was interrupted as often as it was tried, which comes to `TimedOut`. |
//! | `FindsFault` | The bytes have this fault, whatever comes after them, and these texts ended before it. |
//! | `FindsLastFault` | These are the last bytes, and they have this fault. |
//! | `Fits` | So many further bytes have room in its numbers. |
//! | `IsMemory` | an allocation failure is this failure |
//! | `IsSeen` | the token has these |
//! | `items` | each an item |
//! | `lexed` | The tokens of placed bytes, each with its places. |
//! | `Lexeme` | a token, after the places of its first byte and of its last |
//! | `Lists` | The answers of s, up to its first end, list l. |
//! | `ListsMade` | The answers of s, up to its first end, list l, with values made of its items; up to an allocation failure and what was buffered before it. |
//! | `MakesJson` | The text without blanks was made, or the bytes have this fault, or there was no memory for it. |
//! | `minified_or_wanted` | The bytes of the tokens of a text, where these are one JSON text; or the first fault, and what could come there. |
//! | `numbered` | each item beside its number, from n on; failures have none |
//! | `peekable_parts` | the source, and the answer that was looked at |
//! | `place_of` | the line and the column of the byte that has so many before it |
//! | `Placed` | a byte and its place, the place first |
//! | `seen` | what the reference that is returned points to |
//! | `taken` | What a step makes of the containers that are open. A container ends where it is the innermost. A comma stands in a container. |
//! | `Takes` | So many bytes were taken: whatever comes after the bytes, and however that ends, these texts ended, and what is begun goes on with the others; of these alone no more could be taken, and no blank is left. |
//! | `TakesAll` | These are the last bytes, and all that is left of the texts ended. |
//! | `texted` | the tokens of placed bytes, each with its places and its text |
//! | `Tokens` | the tokens of bytes, and the faults of those that break off |
