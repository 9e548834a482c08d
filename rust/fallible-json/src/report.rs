//! The JSON texts that a reader yields, without blanks, each on a line.

use crate::fault::{JsonFault, TextFault};
use crate::making::MakeTexts;
use crate::texts::{Texts, valid_len};
use alloc::vec::Vec;
use program_io::fault::RunFault;
#[cfg(feature = "std")]
use program_io::fault::fault_of_read;
use program_io::memory::Fault;
#[cfg(feature = "std")]
use program_io::reading::ReadBytes;
#[cfg(feature = "std")]
use program_io::reading::read_after;
#[cfg(feature = "std")]
use program_io::writing::WriteText;
#[cfg(feature = "std")]
use std::io;

/// What of a text is printed before it ends.
#[derive(Clone, Copy, Debug, PartialEq, Eq)]
pub enum Prints {
    /// Nothing: each text is printed when it ends, and of one that has a fault nothing. Its bytes are held in memory.
    Texts,
    /// Each token of an array or an object, soon after it came. Of a text that has a fault the tokens before that are printed, with no newline.
    Tokens,
}

// How many bytes are read at most, so that the numbers of lines fit a `usize`.
const MOST: usize = 1 << 61;

// Writes the first bytes of the lines.
#[cfg(feature = "std")]
fn write_first<W: WriteText>(texts: &Texts, count: usize, writer: &mut W) -> io::Result<()> {
    if count == 0 {
        return Ok(());
    }
    writer.write_bytes(&texts.lines[..count])
}

// Writes the texts that ended, and where tokens are printed those of an array or an object that is begun; and lets go of what was written.
#[cfg(feature = "std")]
fn write_ended<W: WriteText>(texts: &mut Texts, prints: Prints, writer: &mut W) -> io::Result<()> {
    let all = match prints {
        Prints::Texts => false,
        Prints::Tokens => !texts.nesting.containers.is_empty(),
    };
    let count = if all { texts.lines.len() } else { texts.whole };
    write_first(texts, count, writer)?;
    texts.forget(all);
    Ok(())
}

// Writes what is printed before a fault, and tells of that.
#[cfg(feature = "std")]
fn end_with<W: WriteText>(
    fault: RunFault<TextFault>,
    texts: &Texts,
    prints: Prints,
    writer: &mut W,
) -> RunFault<TextFault> {
    let count = match prints {
        Prints::Texts => texts.whole,
        Prints::Tokens => texts.lines.len(),
    };
    match write_first(texts, count, writer) {
        Ok(()) => fault,
        Err(error) => RunFault::Write(error.into()),
    }
}

// Takes the texts of bytes of which the first ones are known to be UTF-8. How many are taken, and how many are UTF-8; or the first fault.
fn take_part<M: MakeTexts>(
    maker: &M,
    texts: &mut Texts,
    bytes: &[u8],
    checked: usize,
) -> Result<(usize, usize), Fault<JsonFault>> {
    let (more, broken) = valid_len(&bytes[checked..]);
    let valid = checked + more;
    let taken = maker.push(texts, &bytes[..valid])?;
    if broken {
        return Err(Fault::Source(texts.broken(&bytes[taken..valid])));
    }
    Ok((taken, valid))
}

// Takes the last bytes, of which the first ones are known to be UTF-8, and others begin a character.
fn take_last<M: MakeTexts>(
    maker: &M,
    texts: &mut Texts,
    bytes: &[u8],
    checked: usize,
) -> Result<(), Fault<JsonFault>> {
    if checked < bytes.len() {
        return Err(Fault::Source(texts.broken(&bytes[..checked])));
    }
    maker.finish(texts, bytes)
}

// Tells of a fault of the texts, of which those before it are counted.
#[cfg(feature = "std")]
fn tell<W: WriteText>(
    fault: Fault<JsonFault>,
    texts: &Texts,
    prints: Prints,
    writer: &mut W,
) -> RunFault<TextFault> {
    match fault {
        Fault::Source(fault) => {
            let text = texts.count + 1;
            end_with(
                RunFault::Input(TextFault { text, fault }),
                texts,
                prints,
                writer,
            )
        }
        // No memory: the fault has the error of an allocation, and that of a run doesn't keep it.
        Fault::Memory(_) => RunFault::Memory,
    }
}

// Takes the texts of bytes of which the first ones are known to be UTF-8, and writes them. How many bytes are taken, and how many are UTF-8.
#[cfg(feature = "std")]
fn print_part<M: MakeTexts, W: WriteText>(
    maker: &M,
    texts: &mut Texts,
    bytes: &[u8],
    checked: usize,
    prints: Prints,
    writer: &mut W,
) -> Result<(usize, usize), RunFault<TextFault>> {
    match take_part(maker, texts, bytes, checked) {
        Ok(part) => match write_ended(texts, prints, writer) {
            Ok(()) => Ok(part),
            Err(error) => Err(RunFault::Write(error.into())),
        },
        Err(fault) => Err(tell(fault, texts, prints, writer)),
    }
}

// Takes the last bytes, and writes the texts that end with them.
#[cfg(feature = "std")]
fn print_last<M: MakeTexts, W: WriteText>(
    maker: &M,
    texts: &mut Texts,
    bytes: &[u8],
    checked: usize,
    prints: Prints,
    writer: &mut W,
) -> Result<(), RunFault<TextFault>> {
    match take_last(maker, texts, bytes, checked) {
        Ok(()) => match write_first(texts, texts.whole, writer) {
            Ok(()) => Ok(()),
            Err(error) => Err(RunFault::Write(error.into())),
        },
        Err(fault) => Err(tell(fault, texts, prints, writer)),
    }
}

// Reads bytes into a buffer, after the first `held` ones, `most` at most. How many they are, 0 at the end.
#[cfg(feature = "std")]
fn fill<M: MakeTexts, R: ReadBytes>(
    maker: &M,
    reader: &mut R,
    buffer: &mut Vec<u8>,
    held: usize,
    most: usize,
) -> Result<usize, RunFault<TextFault>> {
    match maker.widen(buffer, held) {
        Ok(()) => {}
        // No memory: `widen` fails only if an allocation does, and its fault doesn't keep the error.
        Err(_) => return Err(RunFault::Memory),
    }
    let end = buffer.len().min(held + most);
    match read_after(reader, buffer.as_mut_slice(), held, end) {
        Ok(count) => Ok(count),
        Err(e) => Err(fault_of_read(e)),
    }
}

// Moves the bytes of a buffer from `taken` to `filled` to its front.
fn keep_rest(buffer: &mut Vec<u8>, taken: usize, filled: usize) {
    if taken > 0 {
        buffer.copy_within(taken..filled, 0);
    }
}

/// Reads JSON texts up to the end of `reader`, which may be any reader of std, and writes each to `writer` without the blanks between its tokens, and a newline, as soon as it ends. It fails with `Input` at the first fault of a text, with `Read` where a read fails, or after 2 ^ 61 bytes, with `Memory` if that is for want of memory or `maker` has none, and with `Write` where the writer fails. What is printed of the bytes before a fault or a failed read is written first. An interrupted read is tried again.
///
/// <details><summary>Contract</summary>
///
/// As it is proved, in [these words](crate::words):
///
/// ```text
/// ensures { ComesTo R.left (Fails R.left R.fails) reader.old reader.new (M.refused maker.now)
///     prints W.failed (W.written writer.old) (W.written writer.new) writer.new result }
/// ```
/// </details>
#[cfg(feature = "std")]
pub fn run<M: MakeTexts, R: ReadBytes, W: WriteText>(
    maker: &M,
    prints: Prints,
    reader: &mut R,
    writer: &mut W,
) -> Result<(), RunFault<TextFault>> {
    let mut texts = Texts::new();
    let mut buffer: Vec<u8> = Vec::new();
    let mut held = 0;
    let mut checked = 0;
    let mut read = 0;
    while read < MOST {
        let count = match fill(maker, reader, &mut buffer, held, MOST - read) {
            Ok(count) => count,
            Err(fault) => return Err(end_with(fault, &texts, prints, writer)),
        };
        if count == 0 {
            return print_last(maker, &mut texts, &buffer[..held], checked, prints, writer);
        }
        let filled = held + count;
        let bytes = &buffer[..filled];
        let (taken, valid) = match print_part(maker, &mut texts, bytes, checked, prints, writer) {
            Ok(part) => part,
            Err(fault) => return Err(fault),
        };
        keep_rest(&mut buffer, taken, filled);
        held = filled - taken;
        checked = valid - taken;
        read += count;
    }
    Err(end_with(
        RunFault::Read(program_io::failed::ReadFailed::new()),
        &texts,
        prints,
        writer,
    ))
}
