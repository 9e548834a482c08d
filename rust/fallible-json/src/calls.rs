//! The calls as a user of Rust makes them. In Rattle each is one of what has memory.
use crate::fault::{JsonFault, TextFault};
use crate::json::MakeJson;
use crate::minifying::{self, Misplaced};
use crate::place::place_after_bytes;
use crate::texts::{self, valid_len};
use crate::token::Token;
use crate::wanted::Wanted;
use alloc::vec::Vec;
use core::fmt;
use fallible_iterator::FallibleIterator;
use program_io::memory::{Fault, Global, TryVec};

/// A JSON text of RFC 8259 without the blanks between its tokens: the bytes of the tokens, one after the other, as they stand in the text. Or its first fault: the first byte with which no token goes on, the first token that may not stand where it stands, the first byte that is no UTF-8, or the end where a token is missing. It fails with `Fault::Memory` if an allocation fails.
///
/// <details><summary>Contract</summary>
///
/// As it is proved, where its signature is another, in [these words](crate::words):
///
/// ```text
/// ensures { MakesJson (refused self.now) text.now result }
/// ```
/// </details>
pub fn json_of(text: &[u8]) -> Result<Vec<u8>, Fault<JsonFault>> {
    Global.json_of(text)
}

/// Why tokens are no JSON text, and what could come there.
#[derive(Clone, Copy, Debug, PartialEq, Eq)]
pub struct Unminified<E> {
    /// Why they are none.
    pub fault: Misplaced<E>,
    /// The tokens that could come there.
    pub wanted: Wanted,
}

impl<E: fmt::Display> fmt::Display for Unminified<E> {
    fn fmt(&self, f: &mut fmt::Formatter<'_>) -> fmt::Result {
        match &self.fault {
            Misplaced::Source(failure) => failure.fmt(f),
            fault => write!(f, "{fault}, expected {}", self.wanted),
        }
    }
}

#[cfg(feature = "std")]
impl<E: std::error::Error> std::error::Error for Unminified<E> {
    fn source(&self) -> Option<&(dyn std::error::Error + 'static)> {
        self.fault.source()
    }
}

/// The bytes of tokens of a text, one after the other, if the tokens are one JSON text of RFC 8259. The tokens come with the places of their first and last bytes in the text; one that has no such bytes adds none.
///
/// It draws up to `Ok(None)` or the first fault, which is returned: the source's failure, the first token that may not stand where it stands, or the end where a token is missing; and with it the tokens that could come there. It doesn't recurse: the containers that are open are a vector. It fails with `Fault::Memory` if an allocation fails.
///
/// Requires that `next` may be called on the source, and that it is finite.
///
/// <details><summary>Contract</summary>
///
/// As it is proved, where its signature is another, in [these words](crate::words):
///
/// ```text
/// requires can_next { I.contract.can_next tokens }
/// requires finite { I.contract.is_finite tokens }
/// ensures { (l : List (Result Lexeme I.Error)) → Lists I.contract.steps tokens l
///     → ComesFrom (minified_or_wanted text.now l) result }
/// ```
/// </details>
pub fn minify<I: FallibleIterator<Item = (usize, usize, Token)>>(
    text: &[u8],
    tokens: I,
) -> Result<Vec<u8>, Fault<Unminified<I::Error>>> {
    match minifying::minify(text, tokens) {
        Ok(json) => Ok(json),
        Err(Fault::Source((fault, wanted))) => Err(Fault::Source(Unminified { fault, wanted })),
        Err(Fault::Memory(refused)) => Err(Fault::Memory(refused)),
    }
}

/// Reads JSON texts up to the end of `reader`, which may be any reader of std, and writes each to `writer` without the blanks between its tokens, and a newline, as soon as it ends. It fails with `Input` at the first fault of a text, with `Read` where a read fails, or after 2 ^ 61 bytes, with `Memory` if that is for want of memory, and with `Write` where the writer fails. What is printed of the bytes before a fault or a failed read is written first. An interrupted read is tried again.
///
/// <details><summary>Contract</summary>
///
/// As it is proved, where its signature is another, in [these words](crate::words):
///
/// ```text
/// ensures { ComesTo R.left (Fails R.left R.fails) reader.old reader.new (M.refused maker.now)
///     prints W.failed (W.written writer.old) (W.written writer.new) writer.new result }
/// ```
/// </details>
#[cfg(feature = "std")]
pub fn run<R: std::io::Read, W: std::io::Write>(
    prints: crate::report::Prints,
    reader: &mut R,
    writer: &mut W,
) -> Result<(), program_io::fault::RunFault<TextFault>> {
    crate::report::run(&Global, prints, reader, writer)
}

/// JSON texts one after another, of bytes that come a chunk at a time, as from a socket that isn't a reader.
///
/// A chunk may end within a token, and within a character. The texts that ended stand in `lines`, each without the blanks between its tokens, and with a newline after it. What is begun is kept.
///
/// After a fault each call returns it again.
///
/// ```
/// use fallible_json::Texts;
///
/// # fn main() -> Result<(), Box<dyn std::error::Error>> {
/// let mut texts = Texts::new();
/// for chunk in [&b"{\"at\": 1}\n[2"[..], b"0, \"\xc3", b"\xa9\"] tr"] {
///     texts.push(chunk)?;
///     print!("{}", std::str::from_utf8(texts.lines())?);
///     texts.clear_lines();
/// }
/// texts.push(b"ue")?;
/// texts.finish()?;
/// assert_eq!(texts.lines(), b"true\n");
/// assert_eq!(texts.count(), 3);
/// # Ok(())
/// # }
/// ```
#[derive(Clone, Debug)]
pub struct Texts {
    texts: texts::Texts,
    // The bytes after those that are taken, of which the first ones are known to be UTF-8.
    held: Vec<u8>,
    checked: usize,
    fault: Option<Fault<TextFault>>,
}

impl Default for Texts {
    fn default() -> Texts {
        Texts::new()
    }
}

impl Texts {
    /// No text yet.
    pub fn new() -> Texts {
        Texts {
            texts: texts::Texts::new(),
            held: Vec::new(),
            checked: 0,
            fault: None,
        }
    }

    /// Takes a chunk of bytes; or the first fault.
    pub fn push(&mut self, chunk: &[u8]) -> Result<(), Fault<TextFault>> {
        self.unless_broken()?;
        if let Err(refused) = self.held.try_extend_from_slice(chunk) {
            return self.broken_by(Fault::Memory(refused));
        }
        let (more, broken) = valid_len(&self.held[self.checked..]);
        let valid = self.checked + more;
        match self.texts.push(&self.held[..valid]) {
            Ok(taken) => {
                if broken {
                    let fault = self.texts.broken(&self.held[taken..valid]);
                    return self.broken_by(Fault::Source(fault));
                }
                self.held.drain(..taken);
                self.checked = valid - taken;
                Ok(())
            }
            Err(fault) => self.broken_by(fault),
        }
    }

    /// Ends the text that is begun, where the bytes end; or the first fault. After it texts may be pushed again.
    pub fn finish(&mut self) -> Result<(), Fault<TextFault>> {
        self.unless_broken()?;
        if self.checked < self.held.len() {
            let fault = self.texts.broken(&self.held[..self.checked]);
            return self.broken_by(Fault::Source(fault));
        }
        match self.texts.finish(&self.held) {
            Ok(()) => {
                self.texts.place = place_after_bytes(self.texts.place, &self.held);
                self.held.clear();
                self.checked = 0;
                // nothing is begun
                self.texts.seen = None;
                Ok(())
            }
            Err(fault) => self.broken_by(fault),
        }
    }

    /// The texts that ended since `clear_lines`, each with a newline after it.
    pub fn lines(&self) -> &[u8] {
        &self.texts.lines[..self.texts.whole]
    }

    /// Lets go of the texts that ended.
    pub fn clear_lines(&mut self) {
        self.texts.forget(false);
    }

    /// How many texts ended.
    pub fn count(&self) -> usize {
        self.texts.count
    }

    fn unless_broken(&self) -> Result<(), Fault<TextFault>> {
        self.fault.map_or(Ok(()), Err)
    }

    fn broken_by(&mut self, fault: Fault<JsonFault>) -> Result<(), Fault<TextFault>> {
        let text = self.texts.count + 1;
        let fault = match fault {
            Fault::Source(fault) => Fault::Source(TextFault { text, fault }),
            Fault::Memory(refused) => Fault::Memory(refused),
        };
        self.fault = Some(fault);
        Err(fault)
    }
}
