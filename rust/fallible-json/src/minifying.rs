//! The text of JSON without the blanks between its tokens, or the first fault and its place.

use crate::grammar::{Expects, Nesting, Stop};
use crate::token::Token;
use crate::wanted::Wanted;
use alloc::vec::Vec;
use fallible_iterator::FallibleIterator;
use program_io::memory::{AllocError, Fault, TryVec};

/// Why tokens are no JSON text.
#[derive(Clone, Copy, Debug, PartialEq, Eq)]
pub enum Misplaced<E> {
    /// The source of the tokens failed.
    Source(E),
    /// The token that begins at this place may not stand there.
    Unexpected(usize),
    /// The tokens end where one is missing.
    Ended,
}

// Adds a byte.
#[inline(always)]
pub(crate) fn add_byte(json: &mut Vec<u8>, byte: u8) -> Result<(), AllocError> {
    // No memory: a push fails only if an allocation does.
    if json.try_push(byte).is_err() {
        return Err(AllocError);
    }
    Ok(())
}

// Adds the bytes of a text from the first to the last; none, where it has no such bytes.
#[inline(always)]
pub(crate) fn add_bytes(
    json: &mut Vec<u8>,
    text: &[u8],
    first: usize,
    last: usize,
) -> Result<(), AllocError> {
    if text.len() <= last || last < first {
        return Ok(());
    }
    // A token of one byte needs no copy of a run.
    if first == last {
        return add_byte(json, text[first]);
    }
    // No memory: adding bytes to a vector fails only if an allocation does.
    if json.try_extend_from_slice(&text[first..last + 1]).is_err() {
        return Err(AllocError);
    }
    Ok(())
}

// The text, if the tokens were one JSON text.
fn ended<E>(
    is_whole: bool,
    wanted: Wanted,
    json: Vec<u8>,
) -> Result<Vec<u8>, Fault<(Misplaced<E>, Wanted)>> {
    if is_whole {
        Ok(json)
    } else {
        Err(Fault::Source((Misplaced::Ended, wanted)))
    }
}

/// The bytes of tokens of a text, one after the other, if the tokens are one JSON text of RFC 8259. The tokens come with the places of their first and last bytes in the text; one that has no such bytes adds none.
///
/// It draws up to `Ok(None)` or the first fault, which is returned: the source's failure, the first token that may not stand where it stands, or the end where a token is missing; and with it the tokens that could come there. It doesn't recurse: the containers that are open are a vector. It fails with `Fault::Memory` if an allocation fails.
///
/// Requires that `next` may be called on the source, and that it is finite.
///
/// <details><summary>Contract</summary>
///
/// As it is proved, in [these words](crate::words):
///
/// ```text
/// requires can_next { I.contract.can_next tokens }
/// requires finite { I.contract.is_finite tokens }
/// ensures { (l : List (Result Lexeme I.Error)) → Lists I.contract.steps tokens l
///     → ComesFrom (minified_or_wanted text.now l) result }
/// ```
/// </details>
pub fn minify<I: FallibleIterator<Item = (usize, usize, Token)>>(
    text: &[u8],
    mut tokens: I,
) -> Result<Vec<u8>, Fault<(Misplaced<I::Error>, Wanted)>> {
    let mut nesting = Nesting {
        containers: Vec::new(),
        expects: Expects::Value,
    };
    let mut json = Vec::new();
    loop {
        let (first, last, token) = match tokens.next() {
            Ok(Some(next)) => next,
            Ok(None) => return ended(nesting.is_whole(), nesting.wanted(), json),
            Err(e) => return Err(Fault::Source((Misplaced::Source(e), nesting.wanted()))),
        };
        match nesting.after(token) {
            Ok(()) => {}
            Err(Stop::Unexpected) => {
                return Err(Fault::Source((
                    Misplaced::Unexpected(first),
                    nesting.wanted(),
                )));
            }
            // No memory: an allocation failed in `after`, and its fault doesn't keep the error.
            Err(Stop::Memory) => return Err(Fault::Memory(AllocError)),
        }
        // No memory: adding bytes fails only if an allocation does.
        if add_bytes(&mut json, text, first, last).is_err() {
            return Err(Fault::Memory(AllocError));
        }
    }
}
