//! JSON texts one after another, of bytes that come a part at a time.

use crate::fault::{JsonFault, fault_from};
use crate::grammar::{Expects, Nesting, Stop};
use crate::json::{fault_place, wanted_at};
use crate::lexer::LexFault;
use crate::minifying::{Misplaced, add_byte, add_bytes};
use crate::place::place_after_bytes;
use crate::text::{Run, run_at, run_in, token_at};
use crate::token::{Phase, Token, is_blank, sign_of, token_of};
use crate::wanted::wanted_in;
use alloc::vec::Vec;
use core::convert::Infallible;
use core::str::from_utf8;
use program_io::memory::{AllocError, Fault};

// Whether a token is a number or a literal.
#[inline(always)]
fn is_word(token: Token) -> bool {
    match token {
        Token::Number | Token::Literal => true,
        _ => false,
    }
}

// Whether a byte may stand right after a text that is a number or a literal.
fn ends_word(byte: u8) -> bool {
    is_blank(byte) || byte == b'"' || sign_of(byte).is_some()
}

// Whether the byte after a token is one that may not stand right after it.
#[inline(always)]
fn is_joined(bytes: &[u8], last: usize, token: Token) -> bool {
    is_word(token) && last + 1 < bytes.len() && !ends_word(bytes[last + 1])
}

// How many of the bytes are UTF-8, and whether the one after them is none whatever comes after.
pub(crate) fn valid_len(bytes: &[u8]) -> (usize, bool) {
    match from_utf8(bytes) {
        Ok(_) => (bytes.len(), false),
        Err(e) => (e.valid_up_to(), e.error_len().is_some()),
    }
}

// What was seen of a token that another byte could change: how many bytes, and what they make of it.
pub(crate) type Seen = (usize, Phase);

// What stands first of bytes after which others may come.
enum Front {
    // A token, after the places of its first byte and its last, and before the place after it.
    Token(usize, usize, Token, usize),
    // A fault.
    Faulty(LexFault<Infallible>),
    // What another byte could change, or nothing: where it begins, and what was seen of it.
    Open(usize, Option<Seen>),
}

// What stands first, where the bytes from `first` to `end` make this phase of a token.
#[inline(always)]
fn front_of(bytes: &[u8], first: usize, end: usize, phase: Phase) -> Front {
    match token_of(phase) {
        Some(token) => {
            if is_word(token) && bytes.len() <= end {
                Front::Open(first, Some((end - first, phase)))
            } else {
                Front::Token(first, end - 1, token, end)
            }
        }
        None => {
            if bytes.len() <= end {
                Front::Open(first, Some((end - first, phase)))
            } else {
                Front::Faulty(LexFault::Unfinished(end - 1, wanted_in(phase)))
            }
        }
    }
}

// What stands first at a place. What was seen of it isn't looked at again.
#[inline(always)]
fn front_at(bytes: &[u8], place: usize, seen: Option<Seen>) -> Front {
    if let Some((count, begun)) = seen {
        let (end, phase) = run_in(bytes, count, begun);
        return front_of(bytes, 0, end, phase);
    }
    match run_at(bytes, place) {
        Run::Blank => Front::Open(bytes.len(), None),
        Run::Unknown(first) => Front::Faulty(LexFault::Unknown(first)),
        Run::Begun(first, end, phase) => front_of(bytes, first, end, phase),
    }
}

/// The texts of bytes that come a part at a time: those that ended, and what is begun of one.
#[derive(Clone, Debug)]
pub struct Texts {
    // Where the tokens of the text have come to.
    pub(crate) nesting: Nesting,
    // The texts that ended, each on a line, and the bytes of the tokens of the one that is begun.
    pub(crate) lines: Vec<u8>,
    // How many bytes the lines of texts have that ended.
    pub(crate) whole: usize,
    // How many texts ended.
    pub(crate) count: usize,
    // The line and the column of the byte that comes next.
    pub(crate) place: (usize, usize),
    // What was seen of the token that comes next, if it is begun.
    pub(crate) seen: Option<Seen>,
}

impl Texts {
    // No text yet.
    pub(crate) fn new() -> Texts {
        Texts {
            nesting: Nesting {
                containers: Vec::new(),
                expects: Expects::Value,
            },
            lines: Vec::new(),
            whole: 0,
            count: 0,
            place: (1, 1),
            seen: None,
        }
    }

    // Whether no token of a text came.
    fn is_begin(&self) -> bool {
        match self.nesting.expects {
            Expects::Value => self.nesting.containers.is_empty(),
            _ => false,
        }
    }

    // Ends the text that is begun, which is whole.
    fn end_text(&mut self) -> Result<(), AllocError> {
        add_byte(&mut self.lines, b'\n')?;
        self.whole = self.lines.len();
        self.count += 1;
        self.nesting.expects = Expects::Value;
        Ok(())
    }

    // Adds a token of bytes to what is begun.
    #[inline(always)]
    fn add(&mut self, bytes: &[u8], first: usize, last: usize, token: Token) -> Result<(), Stop> {
        match self.nesting.after(token) {
            Ok(()) => {}
            Err(stop) => return Err(stop),
        }
        match add_bytes(&mut self.lines, bytes, first, last) {
            Ok(()) => Ok(()),
            // No memory: adding bytes fails only if an allocation does.
            Err(_) => Err(Stop::Memory),
        }
    }

    // Takes a token of bytes; or the fault where it may not stand.
    #[inline(always)]
    fn take(
        &mut self,
        bytes: &[u8],
        first: usize,
        last: usize,
        token: Token,
    ) -> Result<(), Fault<JsonFault>> {
        match self.add(bytes, first, last, token) {
            Ok(()) => {}
            Err(Stop::Unexpected) => {
                return Err(Fault::Source(
                    self.told(bytes, Misplaced::Unexpected(first)),
                ));
            }
            // No memory: an allocation failed in `add`, and its fault doesn't keep the error.
            Err(Stop::Memory) => return Err(Fault::Memory(AllocError)),
        }
        if !self.nesting.is_whole() || is_joined(bytes, last, token) {
            return Ok(());
        }
        match self.end_text() {
            Ok(()) => Ok(()),
            Err(e) => Err(Fault::Memory(e)),
        }
    }

    // What is told of a fault of bytes.
    fn told(&self, bytes: &[u8], fault: Misplaced<LexFault<Infallible>>) -> JsonFault {
        let wanted = wanted_at(fault, self.nesting.wanted());
        fault_from(self.place, bytes, fault_place(bytes, fault), wanted)
    }

    // Takes what no further byte could change. How many of the bytes that is; or the first fault.
    pub(crate) fn push(&mut self, bytes: &[u8]) -> Result<usize, Fault<JsonFault>> {
        match self.take_settled(bytes) {
            Ok((taken, seen)) => {
                self.place = place_after_bytes(self.place, &bytes[..taken]);
                self.seen = seen;
                Ok(taken)
            }
            Err(fault) => Err(fault),
        }
    }

    // The same, but for the place and what was seen, which comes after how many bytes are taken.
    fn take_settled(&mut self, bytes: &[u8]) -> Result<(usize, Option<Seen>), Fault<JsonFault>> {
        let mut at = 0;
        let mut seen = self.seen;
        loop {
            match front_at(bytes, at, seen) {
                Front::Token(first, last, token, end) => {
                    match self.take(bytes, first, last, token) {
                        Ok(()) => at = end,
                        Err(fault) => return Err(fault),
                    }
                }
                Front::Faulty(fault) => {
                    return Err(Fault::Source(self.told(bytes, Misplaced::Source(fault))));
                }
                Front::Open(taken, seen) => return Ok((taken, seen)),
            }
            seen = None;
        }
    }

    // Takes the last bytes, and ends the text that is begun; or the first fault.
    pub(crate) fn finish(&mut self, bytes: &[u8]) -> Result<(), Fault<JsonFault>> {
        let mut at = 0;
        loop {
            let (drawn, end) = token_at(bytes, at);
            match drawn {
                Ok(Some((first, last, token))) => match self.take(bytes, first, last, token) {
                    Ok(()) => at = end,
                    Err(fault) => return Err(fault),
                },
                Ok(None) => return self.end(bytes),
                Err(fault) => {
                    return Err(Fault::Source(self.told(bytes, Misplaced::Source(fault))));
                }
            }
        }
    }

    // Ends what is begun, where no more tokens come.
    fn end(&mut self, bytes: &[u8]) -> Result<(), Fault<JsonFault>> {
        if self.is_begin() {
            return Ok(());
        }
        if !self.nesting.is_whole() {
            return Err(Fault::Source(self.told(bytes, Misplaced::Ended)));
        }
        match self.end_text() {
            Ok(()) => Ok(()),
            Err(e) => Err(Fault::Memory(e)),
        }
    }

    // What is told of bytes after which comes one that is no UTF-8.
    pub(crate) fn broken(&self, bytes: &[u8]) -> JsonFault {
        let (line, column) = place_after_bytes(self.place, bytes);
        JsonFault::NotText(line, column)
    }

    // Lets go of the lines of the texts that ended, or of all bytes that it has.
    pub(crate) fn forget(&mut self, all: bool) {
        if all {
            self.lines.clear();
        } else if self.whole > 0 {
            let len = self.lines.len();
            self.lines.copy_within(self.whole..len, 0);
            self.lines.truncate(len - self.whole);
        }
        self.whole = 0;
    }
}
