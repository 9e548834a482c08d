//! A JSON text without blanks, of its bytes.

use crate::fault::{JsonFault, fault_at};
use crate::lexer::LexFault;
use crate::minifying::{Misplaced, minify};
use crate::place::place_of;
use crate::text::TextTokens;
use crate::wanted::Wanted;
use alloc::vec::Vec;
use core::convert::Infallible;
use core::str::from_utf8;
use program_io::memory::{Fault, Global};

// How many bytes come before that at which a fault was met.
pub(crate) fn fault_place(text: &[u8], fault: Misplaced<LexFault<Infallible>>) -> usize {
    match fault {
        Misplaced::Source(LexFault::Source(never)) => match never {},
        Misplaced::Source(LexFault::Unknown(place)) => place,
        Misplaced::Source(LexFault::Unfinished(last, _)) => {
            if last < text.len() {
                last + 1
            } else {
                text.len()
            }
        }
        Misplaced::Unexpected(place) => place,
        Misplaced::Ended => text.len(),
    }
}

// What could come at a fault, where these tokens may.
pub(crate) fn wanted_at(fault: Misplaced<LexFault<Infallible>>, tokens: Wanted) -> Wanted {
    match fault {
        Misplaced::Source(LexFault::Unfinished(_, within)) => within,
        _ => tokens,
    }
}

// The bytes of the tokens of a text, or its first fault.
fn minified_text(text: &[u8]) -> Result<Vec<u8>, Fault<JsonFault>> {
    match minify(text, TextTokens::new(text)) {
        Ok(json) => Ok(json),
        Err(Fault::Source((fault, tokens))) => {
            let wanted = wanted_at(fault, tokens);
            Err(Fault::Source(fault_at(
                text,
                fault_place(text, fault),
                wanted,
            )))
        }
        Err(Fault::Memory(refused)) => Err(Fault::Memory(refused)),
    }
}

// The first fault of bytes that are UTF-8 up to a place, and no further: that of a byte before it, or that place. The text before it is read for that, and an allocation may fail.
fn fault_before(bytes: &[u8], place: usize) -> Fault<JsonFault> {
    let (line, column) = place_of(bytes, place);
    let not_text = Fault::Source(JsonFault::NotText(line, column));
    match minified_text(&bytes[..place]) {
        Ok(_) => not_text,
        Err(Fault::Source(fault)) => match fault {
            JsonFault::Unexpected(line, column, byte, wanted) => {
                Fault::Source(JsonFault::Unexpected(line, column, byte, wanted))
            }
            JsonFault::Ended(_, _, _) => not_text,
            JsonFault::NotText(_, _) => not_text,
        },
        Err(Fault::Memory(refused)) => Fault::Memory(refused),
    }
}

/// Something that makes JSON texts in memory.
pub trait MakeJson {
    /// A JSON text of RFC 8259 without the blanks between its tokens: the bytes of the tokens, one after the other, as they stand in the text. Or its first fault: the first byte with which no token goes on, the first token that may not stand where it stands, the first byte that is no UTF-8, or the end where a token is missing. It fails with `Fault::Memory` if an allocation fails.
    ///
    /// <details><summary>Contract</summary>
    ///
    /// As it is proved, in [these words](crate::words):
    ///
    /// ```text
    /// ensures { MakesJson (refused self.now) text.now result }
    /// ```
    /// </details>
    fn json_of(&self, text: &[u8]) -> Result<Vec<u8>, Fault<JsonFault>>;
}

impl MakeJson for Global {
    fn json_of(&self, text: &[u8]) -> Result<Vec<u8>, Fault<JsonFault>> {
        match from_utf8(text) {
            Ok(_) => minified_text(text),
            Err(e) => Err(fault_before(text, e.valid_up_to())),
        }
    }
}
