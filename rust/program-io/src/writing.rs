//! Writers, and what a failed write leaves; and names as they are shown.

use core::fmt::Display;
#[cfg(feature = "std")]
use std::io;
#[cfg(feature = "std")]
use std::io::Write;

/// What takes a text whole or fails, as every writer does.
#[cfg(feature = "std")]
pub trait WriteText {
    /// Writes a text.
    fn write_text<D: Display>(&mut self, text: D) -> io::Result<()>;

    /// Writes bytes.
    fn write_bytes(&mut self, bytes: &[u8]) -> io::Result<()>;
}

#[cfg(feature = "std")]
impl<W: Write> WriteText for W {
    fn write_text<D: Display>(&mut self, text: D) -> io::Result<()> {
        write!(self, "{text}")
    }

    fn write_bytes(&mut self, bytes: &[u8]) -> io::Result<()> {
        self.write_all(bytes)
    }
}

// The digit of a number below 16.
fn digit_of(number: u8) -> u8 {
    if number < 10 {
        48 + number
    } else {
        87 + number
    }
}

/// Writes a byte as Rust's `escape_ascii` shows it.
#[cfg(feature = "std")]
pub fn write_escaped<W: WriteText>(byte: u8, writer: &mut W) -> io::Result<()> {
    match byte {
        b'\t' => writer.write_bytes(b"\\t"),
        b'\r' => writer.write_bytes(b"\\r"),
        b'\n' => writer.write_bytes(b"\\n"),
        b'\'' => writer.write_bytes(b"\\'"),
        b'"' => writer.write_bytes(b"\\\""),
        b'\\' => writer.write_bytes(b"\\\\"),
        32..=126 => writer.write_bytes(&[byte]),
        _ => writer.write_bytes(&[b'\\', b'x', digit_of(byte / 16), digit_of(byte % 16)]),
    }
}

// Whether a byte is a control character of ASCII.
fn is_control(byte: u8) -> bool {
    byte < 32 || byte == 127
}

// Writes a byte of a word.
#[cfg(feature = "std")]
fn write_shown_byte<W: WriteText>(byte: u8, writer: &mut W) -> io::Result<()> {
    if is_control(byte) {
        write_escaped(byte, writer)
    } else {
        writer.write_bytes(&[byte])
    }
}

// Whether a word is shown as it stands: it has no control character.
fn is_plain(word: &[u8]) -> bool {
    for byte in word {
        if is_control(*byte) {
            return false;
        }
    }
    true
}

// Writes the bytes of a word, of which some are escaped.
#[cfg(feature = "std")]
fn write_each<W: WriteText>(word: &[u8], writer: &mut W) -> io::Result<()> {
    for byte in word {
        write_shown_byte(*byte, writer)?;
    }
    Ok(())
}

/// Writes a word, a file's name for one, in which control characters of ASCII are escaped. A word without any is one write.
#[cfg(feature = "std")]
pub fn write_shown<W: WriteText>(word: &str, writer: &mut W) -> io::Result<()> {
    if is_plain(word.as_bytes()) {
        writer.write_text(word)
    } else {
        write_each(word.as_bytes(), writer)
    }
}
