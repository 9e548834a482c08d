//! What the contracts say. A contract stands in a comment, folded, as it is proved of the source, which is written in Rattle: `requires` is what a caller has to show there, `ensures` what it then knows. Nothing checks either here.
//!
//! `docs/READING.md` of the repository reads some of them aloud.
//!
//! # Terms
//!
//! | Word | Meaning |
//! |---|---|
//! | to draw | to call `next` or `next_back` on the source |
//! | an answer | what that returned: an item, `Ok(Some(x))`; a failure, `Err(e)`; or an end, `Ok(None)`, after which others may come |
//! | lists l | yields exactly l up to its first end (`Lists`); in l an item is `Ok x`, a failure `Err e` |
//! | lists l, fused | also returns `Ok(None)` at each later call (`ListsForGood`) |
//! | list word | a function on such lists, as `filtered` |
//! | held | buffered: taken from the source, or made of that, and not yielded yet |
//! | due | the next answer, which comes without a draw |
//! | lost | drawn, and yielded by nothing any more |
//! | what is left | the iterator after the call |
//! | a step | a value, the answer of one draw, and the value after it |
//! | a run; its trace | draws one after another, `Run steps s trace t`; their answers |
//! | a bound | a number: no run has more items; what has one is *finite* |
//! | a turn | what a fold does with one item: it changes the state, and may stop the fold |
//!
//! # Signs
//!
//! | Sign | Read it as |
//! |---|---|
//! | `self`; `self.now` | the value; what a `&self` points to |
//! | `self.old`, `self.new` | what a `&mut self` points to at the call, and at the return; so `it.old` of any parameter |
//! | `v.items` | the elements of a `Vec` |
//! | `f x y`; `λ x. e` | f called on x and y; the closure `\|x\| e` |
//! | `a % b`, `a ^ b` | remainder, power |
//! | `a ≡ b`, `¬ A` | a equals b; not A |
//! | `A ↔ B` | A if and only if B |
//! | `A × B`, `A ⊎ B` | A and B, of two types their pairs; A or B |
//! | `A → B`; `⊤`, `⊥` | if A then B; true, false |
//! | `(x : T) → P x`; `(x : T) × P x` | for every x of the type T, P x; there is an x with P x |
//! | `ℕ` | the numbers from 0 on; each unsigned integer is seen as one |
//! | `Type 0` | after a parameter, as in `{S A E : Type 0}`: any type; at the end of a word's type: the word is a proposition |
//! | `[]`, `x ∷ l`, `a ++ b` | the empty list, x before the list l, two lists joined |
//! | `contract.steps`, `I.contract.steps` | the steps of this type, of the type parameter I |
//! | `F.FnMut` | what the type F says of its calls |
//! | `ensures value { .. }` | a clause with a name, by which a proof cites it |
//!
//! # Words
//!
//! Those that the contracts of this crate name, each with the sentence of its definition. `docs/INDEX.md` of the repository has all.
//!
//! | Word | Sentence |
//! |---|---|
//! | `answer_says` | what an answer says |
//! | `answer_wants` | the words by which the server proves that it knows the password |
//! | `Answers` | The client's answer to what a server asks: it asks well, and the answer has the words by which the client proves that it knows the password, and those by which the server does. |
//! | `AreColumns` | these are the columns of the description that came last, where one came |
//! | `Asks` | A server asks well: it asks in these words, the digits write a number of rounds, and its text begins with the client's own, goes on, and has no comma. |
//! | `begun` | before the first message |
//! | `cancel_key_of` | the two numbers by which a query of a session is cancelled, by the message that tells them: it has the tag K, and its body is these |
//! | `cells_of` | The cells of the message of a row, up to the first damage: as many as the two bytes after its length say. |
//! | `ComesTo` | An outcome of rows that had come so far, printed in this form: the input gave messages that are rows, notices or skipped, then what the outcome says; and the text of these rows was written, and that of these notices told, and nothing else, or writing failed. |
//! | `form_of` | the form that a format asks for |
//! | `found` | the first item x for which h x is true, if there is one |
//! | `items` | each an item |
//! | `LacksRoom` | Of a text that was put where nothing was held some bytes were refused. |
//! | `message_bytes` | all bytes of a message: its tag, its length and its body |
//! | `messages_parts` | the parts of the messages of a reader: the reader, and how many bytes were read, until no message can be found |
//! | `place_of` | how many bytes were read; 0 once no message can be found |
//! | `ReadsMessage` | One message was read, and no byte after it; the end was met before it; or reading it broke off. |
//! | `request_of` | what a message asks for: it has the tag R, and its body begins with a number |
//! | `row_in` | the reply has this row, if it is one |
//! | `row_text` | the text of a row, by its message: its cells with a separator between each two, and a newline; nothing where it has no cells |
//! | `rows_parts` | the parts of rows: those of the messages, how far they have come, and whether they ended |
//! | `sent_cancel` | what asks a server to cancel the query of a session: a number that stands for this, and the two; it has no tag |
//! | `sent_end` | the end of a session |
//! | `sent_first` | the message by which it says so: the mechanism's name, how many words, and the words |
//! | `sent_message` | a message: its tag, its length, which counts its own four bytes and the body, and the body |
//! | `sent_password` | a password in clear text |
//! | `sent_query` | a query |
//! | `sent_startup` | what asks for a session; it has no tag |
//! | `shows_cells` | the cells that are left |
//! | `StopsWithin` | The front of a text was put, and the bytes after it were refused. |
