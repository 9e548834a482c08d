//! The tokens of bytes that come with their places, where they may stand, each with its text.

use crate::grammar::{Expects, Nesting, Stop};
use crate::lexer::{LexFault, closed, with_byte};
use crate::minifying::{Misplaced, add_byte};
use crate::token::{Phase, Token, begun_by, goes_on, is_blank};
use crate::wanted::Wanted;
use alloc::vec::Vec;
use fallible_iterator::{FallibleIterator, Peekable};
use program_io::memory::{AllocError, Fault};

/// What a token is where it stands.
#[derive(Clone, Copy, Debug, PartialEq, Eq)]
pub enum Kind {
    /// `[`
    BeginArray,
    /// `]`
    EndArray,
    /// `{`
    BeginObject,
    /// `}`
    EndObject,
    /// The name of a member.
    Name,
    /// A string that is a value.
    Text,
    /// A number.
    Number,
    /// `true`
    True,
    /// `false`
    False,
    /// `null`
    Null,
}

/// A token where it may stand.
#[derive(Clone, Debug, PartialEq, Eq)]
pub struct CheckedToken {
    /// What it is.
    pub kind: Kind,
    /// How many arrays and objects are open around it. The begin and the end of one have the same, and all between them a greater one: so a `find` skips it.
    pub depth: usize,
    /// The place of its first byte.
    pub first: usize,
    /// The place of its last byte.
    pub last: usize,
    /// Its bytes, as they stand in the text. A string has its quotes and its escapes.
    pub text: Vec<u8>,
}

// What a literal is.
fn literal_kind(text: &[u8]) -> Kind {
    match text.split_first() {
        Some((byte, _)) => {
            if *byte == b't' {
                Kind::True
            } else if *byte == b'f' {
                Kind::False
            } else {
                Kind::Null
            }
        }
        None => Kind::Null,
    }
}

// What a string is where this may come.
fn text_kind(expects: Expects) -> Kind {
    match expects {
        Expects::NameOrEnd | Expects::Name => Kind::Name,
        _ => Kind::Text,
    }
}

// What a token is that may come here; nothing, if it is a separator.
fn kind_of(expects: Expects, token: Token, text: &[u8]) -> Option<Kind> {
    match token {
        Token::BeginArray => Some(Kind::BeginArray),
        Token::EndArray => Some(Kind::EndArray),
        Token::BeginObject => Some(Kind::BeginObject),
        Token::EndObject => Some(Kind::EndObject),
        Token::NameSeparator | Token::ValueSeparator => None,
        Token::Text => Some(text_kind(expects)),
        Token::Number => Some(Kind::Number),
        Token::Literal => Some(literal_kind(text)),
    }
}

/// Why tokens are no JSON text, and what could come there.
#[derive(Clone, Copy, Debug, PartialEq, Eq)]
pub struct TokenFault<F> {
    /// Why they are none. Of a token that breaks off, `Unfinished` says what goes on with it.
    pub why: Misplaced<F>,
    /// The tokens that could come there.
    pub wanted: Wanted,
}

// Why checked tokens end: a fault of theirs, or a failed allocation.
type CheckFault<E> = Fault<TokenFault<LexFault<E>>>;

// A fault where tokens have come to.
fn faulty<T, E>(nesting: &Nesting, why: Misplaced<LexFault<E>>) -> Result<T, CheckFault<E>> {
    let wanted = nesting.wanted();
    Err(Fault::Source(TokenFault { why, wanted }))
}

// A failure as that of a source.
fn sourced<T, E>(read: Result<T, E>) -> Result<T, Fault<E>> {
    match read {
        Ok(x) => Ok(x),
        Err(e) => Err(Fault::Source(e)),
    }
}

// Draws the bytes that go on with a token that was begun, and adds them to its text. The place of its last byte, and what the token is then.
fn text_run_of<I: FallibleIterator<Item = (usize, u8)>>(
    ahead: &mut Peekable<I>,
    first: usize,
    begun: Phase,
    text: &mut Vec<u8>,
) -> Result<(usize, Phase), Fault<I::Error>> {
    let mut last = first;
    let mut phase = begun;
    loop {
        let (place, byte) = match ahead.next_if(|next| goes_on(phase, next.1)) {
            Ok(Some(next)) => next,
            Ok(None) => return Ok((last, phase)),
            Err(e) => return Err(Fault::Source(e)),
        };
        match add_byte(text, byte) {
            Ok(()) => {}
            Err(refused) => return Err(Fault::Memory(refused)),
        }
        last = place;
        phase = with_byte(phase, byte);
    }
}

// Draws a token, and puts its bytes into a text that has none.
fn token_ahead<I: FallibleIterator<Item = (usize, u8)>>(
    ahead: &mut Peekable<I>,
    text: &mut Vec<u8>,
) -> Result<Option<(usize, usize, Token)>, Fault<LexFault<I::Error>>> {
    let (first, byte) = match ahead.find(|next| Ok(!is_blank(next.1))) {
        Ok(Some(first)) => first,
        Ok(None) => return Ok(None),
        Err(e) => return Err(Fault::Source(LexFault::Source(e))),
    };
    let phase = match begun_by(byte) {
        Some(phase) => phase,
        _ => {
            return Err(Fault::Source(LexFault::Unknown(first)));
        }
    };
    match add_byte(text, byte) {
        Ok(()) => {}
        Err(refused) => return Err(Fault::Memory(refused)),
    }
    match text_run_of(ahead, first, phase, text) {
        Ok((last, ended)) => sourced(closed(first, last, ended)),
        Err(Fault::Source(e)) => Err(Fault::Source(LexFault::Source(e))),
        Err(Fault::Memory(refused)) => Err(Fault::Memory(refused)),
    }
}

// Takes a token where it may stand; nothing comes of a separator.
fn stood<E>(
    nesting: &mut Nesting,
    first: usize,
    last: usize,
    token: Token,
    text: Vec<u8>,
) -> Result<Option<Option<CheckedToken>>, CheckFault<E>> {
    let expects = nesting.expects;
    let around = nesting.containers.len();
    match nesting.after(token) {
        Ok(()) => {}
        Err(Stop::Unexpected) => {
            return faulty(nesting, Misplaced::Unexpected(first));
        }
        // No memory: an allocation failed in `after`, and its fault doesn't keep the error.
        Err(Stop::Memory) => return Err(Fault::Memory(AllocError)),
    }
    let depth = around.min(nesting.containers.len());
    match kind_of(expects, token, &text) {
        Some(kind) => Ok(Some(Some(CheckedToken {
            kind,
            depth,
            first,
            last,
            text,
        }))),
        None => Ok(Some(None)),
    }
}

// Draws a token, and takes it where it may stand; nothing comes of a separator.
fn one_checked<I: FallibleIterator<Item = (usize, u8)>>(
    ahead: &mut Peekable<I>,
    nesting: &mut Nesting,
) -> Result<Option<Option<CheckedToken>>, CheckFault<I::Error>> {
    let mut text = Vec::new();
    match token_ahead(ahead, &mut text) {
        Ok(Some((first, last, token))) => stood(nesting, first, last, token, text),
        Ok(None) => {
            if nesting.is_whole() {
                Ok(None)
            } else {
                faulty(nesting, Misplaced::Ended)
            }
        }
        Err(Fault::Source(e)) => faulty(nesting, Misplaced::Source(e)),
        Err(Fault::Memory(refused)) => Err(Fault::Memory(refused)),
    }
}

// Draws tokens up to the first that is no separator.
fn drawn<I: FallibleIterator<Item = (usize, u8)>>(
    ahead: &mut Peekable<I>,
    nesting: &mut Nesting,
) -> Result<Option<CheckedToken>, CheckFault<I::Error>> {
    loop {
        match one_checked(ahead, nesting) {
            Ok(Some(Some(token))) => return Ok(Some(token)),
            Ok(Some(None)) => {}
            Ok(None) => return Ok(None),
            Err(e) => return Err(e),
        }
    }
}

/// The tokens of one JSON text of RFC 8259, of bytes that come with their places, without the separators: each with its bytes, what it is there, and how deep.
///
/// An item has come where it may stand. A draw looks at the byte after the token, which stays there. A fault ends them: a failure of the source, which takes the place of the token that comes right before it; a byte that begins no token or doesn't go on with one; a token that may not stand where it stands; or the end where one is missing. So does a failed allocation. After the end and after a fault each call returns `Ok(None)` and draws nothing.
///
/// It doesn't recurse. It keeps the token that it reads, and a byte for each array and object that is open. Whether the bytes of a string are UTF-8 it doesn't say.
///
/// Requires that the source is finite.
pub struct CheckedTokens<I: FallibleIterator> {
    ahead: Peekable<I>,
    nesting: Nesting,
    // Whether the end came, or a fault.
    over: bool,
}

impl<I: FallibleIterator<Item = (usize, u8)>> FallibleIterator for CheckedTokens<I> {
    type Item = CheckedToken;

    type Error = CheckFault<I::Error>;

    /// Returns the next token that is no separator.
    fn next(&mut self) -> Result<Option<CheckedToken>, CheckFault<I::Error>> {
        if self.over {
            return Ok(None);
        }
        match drawn(&mut self.ahead, &mut self.nesting) {
            Ok(Some(token)) => Ok(Some(token)),
            Ok(None) => {
                self.over = true;
                Ok(None)
            }
            Err(e) => {
                self.over = true;
                Err(e)
            }
        }
    }

    fn size_hint(&self) -> (usize, Option<usize>) {
        (0, None)
    }
}

impl<I: FallibleIterator<Item = (usize, u8)>> CheckedTokens<I> {
    /// The tokens of these bytes. Making them draws nothing.
    ///
    /// <details><summary>Contract</summary>
    ///
    /// As it is proved, in [these words](crate::words):
    ///
    /// ```text
    /// ensures lists { (l : List (Result Placed I.Error)) → Lists I.contract.steps bytes l
    ///     → ListsMade IsSeen ⟦<CheckedTokens<I> as FallibleIterator>⟧.contract.steps IsMemory
    ///     result (checked begin (texted l)) }
    /// ```
    /// </details>
    pub fn new(bytes: I) -> CheckedTokens<I> {
        CheckedTokens {
            ahead: bytes.peekable(),
            nesting: Nesting {
                containers: Vec::new(),
                expects: Expects::Value,
            },
            over: false,
        }
    }
}

impl<I: FallibleIterator<Item = (usize, u8)> + Clone> Clone for CheckedTokens<I> {
    fn clone(&self) -> Self {
        CheckedTokens {
            ahead: self.ahead.clone(),
            nesting: self.nesting.clone(),
            over: self.over,
        }
    }
}

impl<I: FallibleIterator<Item = (usize, u8)> + core::fmt::Debug> core::fmt::Debug
    for CheckedTokens<I>
{
    fn fmt(&self, f: &mut core::fmt::Formatter<'_>) -> core::fmt::Result {
        f.debug_struct("CheckedTokens")
            .field("ahead", &self.ahead)
            .field("nesting", &self.nesting)
            .field("over", &self.over)
            .finish()
    }
}
