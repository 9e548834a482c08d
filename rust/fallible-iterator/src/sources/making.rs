//! The functions that make sources.

use crate::sources::{Convert, Empty, FromFn, Once, OnceErr, Repeat, RepeatErr};
use core::iter::Fuse;
use core::marker::PhantomData;

/// Creates a fallible iterator of a std iterator over results: an `Ok` is an item, an `Err` a failure, and `None` is `Ok(None)`.
///
/// Creating it draws nothing. `next` draws the std iterator once. It fails with the value of an `Err`. After a failure and after `Ok(None)` the next call draws the std iterator again.
///
/// For a std iterator that may go on after a `None`, as `lines` of a reader, use `convert_fused`.
///
/// ```
/// # use fallible_iterator::{FallibleIterator, convert};
/// let mut it = convert([Ok::<u32, u8>(150), Err(9), Ok(700)].into_iter());
/// let drawn = [it.next(), it.next(), it.next(), it.next()];
/// assert_eq!(drawn, [Ok(Some(150)), Err(9), Ok(Some(700)), Ok(None)]);
/// ```
///
/// <details><summary>Contract</summary>
///
/// As it is proved, in [these words](crate::words):
///
/// ```text
/// ensures parts { convert_parts result ≡ it }
/// ensures results { (l : List (Result T E)) → RunsRead I.next_gives (λ y. y) it l
///     → Lists (parts_as convert_parts (convert_contract I.can_next I.next_gives I.remaining)).steps
///     result (results l) }
/// ensures items { (l : List T) → ItemsRead I.next_gives it l
///     → Lists (parts_as convert_parts
///     (convert_contract {A = T} {E = E} I.can_next I.next_gives I.remaining)).steps result
///     (items l) }
/// ```
/// </details>
pub fn convert<T, E, I: Iterator<Item = Result<T, E>>>(it: I) -> Convert<I> {
    Convert { it }
}

/// Creates a fallible iterator of a std iterator over results that may go on after a `None`, as `lines` of a reader. It is `convert` of the iterator's `fuse`.
///
/// Creating it draws nothing. `next` draws the std iterator once. It fails with the value of an `Err`. It is fused: after the first `Ok(None)` the std iterator isn't drawn again.
///
/// ```
/// # use fallible_iterator::{FallibleIterator, convert_fused};
/// # use std::iter;
/// let mut polls = 0u32;
/// let source = iter::from_fn(|| {
///     polls = polls.wrapping_add(1);
///     if polls == 2 {
///         None
///     } else {
///         Some(Ok::<u32, u8>(polls))
///     }
/// });
/// let mut it = convert_fused(source);
/// assert_eq!([it.next(), it.next(), it.next()],
///     [Ok(Some(1)), Ok(None), Ok(None)]
/// );
/// ```
///
/// <details><summary>Contract</summary>
///
/// As it is proved, in [these words](crate::words):
///
/// ```text
/// ensures source { fuse_source (convert_parts result) ≡ it }
/// ensures fresh { fuse_done (convert_parts result) ≡ false }
/// ensures asks { I.can_next it
///     → ⟦<Convert<Fuse<I>> as FallibleIterator>⟧.contract.can_next result }
/// ensures results { (l : List (Result T E)) → RunsRead I.next_gives (λ y. y) it l
///     → Lists ⟦<Convert<Fuse<I>> as FallibleIterator>⟧.contract.steps result (results l) }
/// ensures items { (l : List T) → ItemsRead I.next_gives it l
///     → Lists ⟦<Convert<Fuse<I>> as FallibleIterator>⟧.contract.steps result (items l) }
/// ensures results_for_good { (l : List (Result T E)) → RunsRead I.next_gives (λ y. y) it l
///     → ListsForGood ⟦<Convert<Fuse<I>> as FallibleIterator>⟧.contract.steps result (results l) }
/// ensures items_for_good { (l : List T) → ItemsRead I.next_gives it l
///     → ListsForGood ⟦<Convert<Fuse<I>> as FallibleIterator>⟧.contract.steps result (items l) }
/// ```
/// </details>
pub fn convert_fused<T, E, I: Iterator<Item = Result<T, E>>>(it: I) -> Convert<Fuse<I>> {
    convert(it.fuse())
}

/// Creates a fallible iterator that yields one item.
///
/// Creating it draws nothing. It never fails. After the item each call returns `Ok(None)`.
///
/// ```
/// # use fallible_iterator::{FallibleIterator, once};
/// let mut it = once::<u32, u8>(5);
/// assert_eq!([it.next(), it.next()], [Ok(Some(5)), Ok(None)]);
/// ```
///
/// <details><summary>Contract</summary>
///
/// As it is proved, in [these words](crate::words):
///
/// ```text
/// ensures parts { once_parts result ≡ Some value }
/// ensures lists { Lists (parts_as once_parts (once_contract {A = T} {E = E})).steps result
///     (Ok value ∷ []) }
/// ```
/// </details>
pub fn once<T, E>(value: T) -> Once<T, E> {
    Once {
        value: Some(value),
        error_type: PhantomData,
    }
}

/// Creates a fallible iterator that yields one failure.
///
/// Creating it draws nothing. It fails once. After the failure each call returns `Ok(None)`.
///
/// ```
/// # use fallible_iterator::{FallibleIterator, once_err};
/// let mut it = once_err::<u32, u8>(9);
/// assert_eq!([it.next(), it.next()], [Err(9), Ok(None)]);
/// ```
///
/// <details><summary>Contract</summary>
///
/// As it is proved, in [these words](crate::words):
///
/// ```text
/// ensures parts { once_err_parts result ≡ Some error }
/// ensures lists { Lists (parts_as once_err_parts (once_err_contract {A = T} {E = E})).steps result
///     (Err error ∷ []) }
/// ```
/// </details>
pub fn once_err<T, E>(error: E) -> OnceErr<T, E> {
    OnceErr {
        item_type: PhantomData,
        error: Some(error),
    }
}

/// Creates a fallible iterator whose `next` returns what the closure returns.
///
/// Creating it draws nothing and calls nothing. `next` calls the closure once, also after an `Ok(None)` or a failure. It fails as the closure does. It may have no end, and is drained through `take`.
///
/// ```
/// # use fallible_iterator::{FallibleIterator, from_fn};
/// let mut calls = 0u32;
/// let mut it = from_fn(|| -> Result<Option<u32>, u8> {
///     calls = calls.wrapping_add(1);
///     if calls == 2 { Err(9) } else { Ok(Some(calls)) }
/// });
/// assert_eq!([it.next(), it.next(), it.next()],
///     [Ok(Some(1)), Err(9), Ok(Some(3))]
/// );
/// ```
///
/// <details><summary>Contract</summary>
///
/// As it is proved, in [these words](crate::words):
///
/// ```text
/// requires { IsCallable (call_of_none F.FnMut) (λ f _. F.pre f) (λ _. ⊤) fun }
/// ensures parts { from_fn_parts result ≡ fun }
/// ensures lists { (l : List (Result I E)) → CallsGive (call_of_none F.FnMut) fun l
///     → Lists (parts_as from_fn_parts (from_fn_contract F.FnMut)).steps result l }
/// ensures shown { (shows : F → List (Result I E)) → CallsTakeShown (call_of_none F.FnMut) shows
///     → Lists (parts_as from_fn_parts (from_fn_contract F.FnMut)).steps result (shows fun) }
/// ```
/// </details>
pub fn from_fn<I, E, F: FnMut() -> Result<Option<I>, E>>(fun: F) -> FromFn<F> {
    FromFn { fun }
}

/// Creates a fallible iterator that yields nothing: each call returns `Ok(None)`.
///
/// Creating it draws nothing. It never fails.
///
/// ```
/// # use fallible_iterator::{FallibleIterator, empty};
/// let mut it = empty::<u32, u8>();
/// assert_eq!([it.next(), it.next()], [Ok(None), Ok(None)]);
/// ```
///
/// <details><summary>Contract</summary>
///
/// As it is proved, in [these words](crate::words):
///
/// ```text
/// ensures lists { Lists (empty_contract {S = Empty T E} {A = T} {E = E}).steps result [] }
/// ```
/// </details>
pub fn empty<T, E>() -> Empty<T, E> {
    Empty {
        item_type: PhantomData,
        error_type: PhantomData,
    }
}

/// Creates a fallible iterator that always yields a clone of `value`.
///
/// Creating it draws nothing. Each `next` clones the value, which stays. It has no end, and is drained through `take`.
///
/// ```
/// # use fallible_iterator::{FallibleIterator, repeat};
/// let mut it = repeat::<u32, u8>(5);
/// assert_eq!([it.next(), it.next()], [Ok(Some(5)), Ok(Some(5))]);
/// ```
///
/// <details><summary>Contract</summary>
///
/// As it is proved, in [these words](crate::words):
///
/// ```text
/// ensures parts { repeat_parts result ≡ value }
/// ensures repeats { T.is_infallible value → ((x : T) → T.is_clone value x → x ≡ value)
///     → Repeats
///     (parts_as repeat_parts (repeat_contract T.is_clone T.is_infallible E.from_gives)).steps
///     result (Ok value) }
/// ensures until_refused { (s : Take (Repeat T E)) (n : ℕ) → take_parts s ≡ (result, n)
///     → ListsUntilRefused T.is_clone
///     (parts_as take_parts (take_contract (parts_as repeat_parts (repeat_contract T.is_clone
///     T.is_infallible E.from_gives)))).steps E.from_gives s (repeated n value) }
/// ```
/// </details>
pub fn repeat<T: Clone, E>(value: T) -> Repeat<T, E> {
    Repeat {
        value,
        error_type: PhantomData,
    }
}

/// Creates a fallible iterator that always fails with a clone of `error`.
///
/// Creating it draws nothing. Each `next` clones the error, which stays.
///
/// ```
/// # use fallible_iterator::{FallibleIterator, repeat_err};
/// # use std::fmt;
/// let mut it = repeat_err::<u32, fmt::Error>(fmt::Error);
/// assert_eq!([it.next(), it.next()], [Err(fmt::Error), Err(fmt::Error)]);
/// ```
///
/// <details><summary>Contract</summary>
///
/// As it is proved, in [these words](crate::words):
///
/// ```text
/// ensures parts { repeat_err_parts result ≡ error }
/// ```
/// </details>
pub fn repeat_err<T, E: Clone>(error: E) -> RepeatErr<T, E> {
    RepeatErr {
        item_type: PhantomData,
        error,
    }
}
