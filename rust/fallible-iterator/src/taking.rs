//! A fold over the items that a test accepts.

use crate::fallible_core::{FallibleIterator, Peekable};

/// Calls `f` on the value so far and each item in order, as long as the test returns true for the next item, and returns the last value. The test is called once on each item that comes next, and then `f` once on an accepted one.
///
/// It draws up to the first item that the test rejects, `Ok(None)`, the first failure or an item on which the test or `f` fails. A rejected item stays next, and an `Ok(None)` is buffered. It fails with the first failure, of the source, of the test or of `f`; an item on which either fails is lost. The iterator may be used again.
///
/// Precondition, which is not checked: the iterator is finite.
///
/// ```
/// # use fallible_iterator::{FallibleIterator, convert, fold_if};
/// let mut it = convert([Ok::<u32, u8>(1), Ok(2), Ok(30), Ok(4)].into_iter()).peekable();
/// let read = fold_if(
///     &mut it,
///     0,
///     |digit| Ok(*digit < 10),
///     |number: u32, digit: u32| Ok(number.wrapping_mul(10).wrapping_add(digit)),
/// );
/// assert_eq!(read, Ok(12));
/// assert_eq!(it.next(), Ok(Some(30)));
/// ```
///
/// <details><summary>Contract</summary>
///
/// As it is proved, in [these words](crate::words):
///
/// ```text
/// requires can_next { (peekable_contract I.contract).can_next (peekable_parts ahead.old) }
/// requires finite { (peekable_contract I.contract).is_finite (peekable_parts ahead.old) }
/// requires callable { CallableInFold (peekable_contract I.contract).steps
///     (AcceptedCall (call_by_reference P.FnMut) (call_with F.FnMut))
///     (accepted_takes (call_by_reference P.FnMut) (call_with F.FnMut)
///     (takes_by_reference P.FnMut) (takes_with F.FnMut)) (peekable_parts ahead.old) (test, f) init }
/// ensures folded { FoldIfDrains I.contract.steps (call_by_reference P.FnMut) (call_with F.FnMut)
///     (peekable_parts ahead.old) init test f result (peekable_parts ahead.new) }
/// ensures value { OverListWith (Acts (call_by_reference P.FnMut) test)
///     (parts_as peekable_parts (peekable_contract I.contract)).steps ahead.old
///     (λ p l. (h : B → I.Item → Result B I.Error) → FoldsAs (call_with F.FnMut) f p h
///     → result ≡ folded_if p h init l) }
/// ensures rest { OverListWith (Acts (call_by_reference P.FnMut) test)
///     (parts_as peekable_parts (peekable_contract I.contract)).steps ahead.old
///     (λ p l. (h : B → I.Item → Result B I.Error) → FoldsAs (call_with F.FnMut) f p h
///     → Lists (parts_as peekable_parts (peekable_contract I.contract)).steps ahead.new
///     (rest_fold_if p h init l)) }
/// ensures stays { Stays (parts_as peekable_parts (peekable_contract I.contract))
///     ahead.old ahead.new }
/// ```
/// </details>
pub fn fold_if<I, B, P, F>(ahead: &mut Peekable<I>, init: B, test: P, f: F) -> Result<B, I::Error>
where
    I: FallibleIterator,
    P: FnMut(&I::Item) -> Result<bool, I::Error>,
    F: FnMut(B, I::Item) -> Result<B, I::Error>,
{
    let mut test = test;
    let mut f = f;
    let mut value = init;
    while let Some(x) = next_accepted(ahead, &mut test)? {
        value = f(value, x)?;
    }
    Ok(value)
}

// The next item, if the test accepts it, and otherwise `Ok(None)`.
fn next_accepted<I, P>(ahead: &mut Peekable<I>, test: &mut P) -> Result<Option<I::Item>, I::Error>
where
    I: FallibleIterator,
    P: FnMut(&I::Item) -> Result<bool, I::Error>,
{
    match ahead.fill() {
        Ok(()) => {}
        Err(e) => return Err(e),
    }
    match none_held_or_accepts(&*ahead, test) {
        Ok(true) => ahead.next(),
        Ok(false) => Ok(None),
        Err(e) => match ahead.next() {
            Ok(_) => Err(e),
            Err(_) => unreachable!(),
        },
    }
}

// What the test returns on the buffered item, and false if none is buffered.
fn none_held_or_accepts<I, P>(ahead: &Peekable<I>, test: &mut P) -> Result<bool, I::Error>
where
    I: FallibleIterator,
    P: FnMut(&I::Item) -> Result<bool, I::Error>,
{
    match ahead.held() {
        Some(item) => test(item),
        None => Ok(false),
    }
}
