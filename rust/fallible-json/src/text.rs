//! The tokens of a text that is in memory, read by runs of bytes.

use crate::lexer::{LexFault, closed};
use crate::token::{Phase, Token, after, is_blank, letter_begun, sign_of};
use core::convert::Infallible;
use fallible_iterator::FallibleIterator;

// Where the blanks end that stand at a place.
fn blanks_end(text: &[u8], from: usize) -> usize {
    let mut at = from;
    while at < text.len() && is_blank(text[at]) {
        at += 1;
    }
    at
}

// Where the bytes end that stand in a string as they are.
fn chars_end(text: &[u8], from: usize) -> usize {
    let mut at = from;
    while at < text.len() {
        let byte = text[at];
        if byte < 32 || byte == b'"' || byte == b'\\' {
            return at;
        }
        at += 1;
    }
    at
}

// Where the digits end.
fn digits_end(text: &[u8], from: usize) -> usize {
    let mut at = from;
    while at < text.len() && text[at].is_ascii_digit() {
        at += 1;
    }
    at
}

// Where the bytes end that go on with a token and leave its phase as it is, as far as they are stepped over.
fn phase_end(text: &[u8], from: usize, phase: Phase) -> usize {
    match phase {
        Phase::Inside => chars_end(text, from),
        Phase::Integer | Phase::Fraction | Phase::Power => digits_end(text, from),
        _ => from,
    }
}

// Where the bytes end that go on with a token that was begun, and what the token is then.
#[inline(always)]
pub(crate) fn run_in(text: &[u8], from: usize, begun: Phase) -> (usize, Phase) {
    let mut at = from;
    let mut phase = begun;
    loop {
        if let Phase::Whole(_) = phase {
            return (at, phase);
        }
        let end = phase_end(text, at, phase);
        if text.len() <= end {
            return (end, phase);
        }
        let byte = text[end];
        if let Phase::Inside = phase {
            if byte == b'"' {
                return (end + 1, Phase::Whole(Token::Text));
            }
        }
        let next = match after(phase, byte) {
            Some(next) => next,
            _ => {
                return (end, phase);
            }
        };
        phase = next;
        at = end + 1;
    }
}

// What stands at a place of a text.
pub(crate) enum Run {
    // Blanks alone, or nothing.
    Blank,
    // A byte that begins no token, after its place.
    Unknown(usize),
    // A token, after the places of its first byte and of the end of those that go on with it, and what they make of it.
    Begun(usize, usize, Phase),
}

// What stands at a place.
#[inline(always)]
pub(crate) fn run_at(text: &[u8], place: usize) -> Run {
    let first = blanks_end(text, place);
    if text.len() <= first {
        return Run::Blank;
    }
    let byte = text[first];
    if let Some(token) = sign_of(byte) {
        return Run::Begun(first, first + 1, Phase::Whole(token));
    }
    let begun = match letter_begun(byte) {
        Some(begun) => begun,
        _ => {
            return Run::Unknown(first);
        }
    };
    let (end, phase) = run_in(text, first + 1, begun);
    Run::Begun(first, end, phase)
}

// A token, after the places of its first byte and its last.
type Drawn = Result<Option<(usize, usize, Token)>, LexFault<Infallible>>;

// The token that comes next at a place, and where those after it are looked for.
pub(crate) fn token_at(text: &[u8], place: usize) -> (Drawn, usize) {
    match run_at(text, place) {
        Run::Blank => (Ok(None), place),
        Run::Unknown(first) => (Err(LexFault::Unknown(first)), first + 1),
        Run::Begun(first, end, phase) => (closed(first, end - 1, phase), end),
    }
}

// The tokens of a text, each after the places of its first byte and its last, as `Tokens` yields them of `PlacedBytes`. Blanks, digits and the bytes of a string are stepped over a run at a time.
pub(crate) struct TextTokens<'a> {
    text: &'a [u8],
    // Where the next token is looked for.
    place: usize,
}

impl FallibleIterator for TextTokens<'_> {
    type Item = (usize, usize, Token);

    type Error = LexFault<Infallible>;

    fn next(&mut self) -> Result<Option<(usize, usize, Token)>, LexFault<Infallible>> {
        let (drawn, place) = token_at(self.text, self.place);
        self.place = place;
        drawn
    }

    fn size_hint(&self) -> (usize, Option<usize>) {
        (0, None)
    }
}

impl<'a> TextTokens<'a> {
    // The tokens of a text.
    pub(crate) fn new(text: &'a [u8]) -> TextTokens<'a> {
        TextTokens { text, place: 0 }
    }
}
