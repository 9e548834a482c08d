//! What is wrong with a text that is no JSON, and how that is told.

use crate::place::place_after_bytes;
use crate::wanted::Wanted;
#[cfg(feature = "std")]
use program_io::fault::InputFault;
#[cfg(feature = "std")]
use program_io::writing::WriteText;
#[cfg(feature = "std")]
use std::io;

/// Why a text is no JSON text. Each has the line and the column where that was met, both from 1, and the first two what could come there.
#[derive(Clone, Copy, Debug, PartialEq, Eq)]
pub enum JsonFault {
    /// This byte may not stand there.
    Unexpected(usize, usize, u8, Wanted),
    /// The text ends there.
    Ended(usize, usize, Wanted),
    /// What stands there is no UTF-8.
    NotText(usize, usize),
}

// The fault of the byte at a place, or of the end.
pub(crate) fn fault_at(text: &[u8], place: usize, wanted: Wanted) -> JsonFault {
    fault_from((1, 1), text, place, wanted)
}

// The same of bytes of which the first has this line and column.
pub(crate) fn fault_from(
    origin: (usize, usize),
    text: &[u8],
    place: usize,
    wanted: Wanted,
) -> JsonFault {
    if place < text.len() {
        let (line, column) = place_after_bytes(origin, &text[..place]);
        JsonFault::Unexpected(line, column, text[place], wanted)
    } else {
        let (line, column) = place_after_bytes(origin, text);
        JsonFault::Ended(line, column, wanted)
    }
}

// Writes a byte: itself between quotes, if it is a character of ASCII that is printed, or else its number.
#[cfg(feature = "std")]
fn write_byte<W: WriteText>(byte: u8, errors: &mut W) -> io::Result<()> {
    if 32 <= byte && byte < 127 {
        errors.write_bytes(&[b'\'', byte, b'\''])
    } else {
        errors.write_text(format_args!("byte {byte}"))
    }
}

// Writes that a byte may not stand at a place, and what could.
#[cfg(feature = "std")]
fn write_unexpected<W: WriteText>(
    line: usize,
    column: usize,
    byte: u8,
    wanted: Wanted,
    errors: &mut W,
) -> io::Result<()> {
    write_after_place(line, column, ": unexpected ", errors)?;
    write_byte(byte, errors)?;
    wanted.write(errors)
}

// Writes that a text ends at a place, and what could come there.
#[cfg(feature = "std")]
fn write_ended<W: WriteText>(
    line: usize,
    column: usize,
    wanted: Wanted,
    errors: &mut W,
) -> io::Result<()> {
    write_after_place(line, column, ": unexpected end", errors)?;
    wanted.write(errors)
}

// Writes a place, and a text after it.
#[cfg(feature = "std")]
fn write_after_place<W: WriteText>(
    line: usize,
    column: usize,
    text: &str,
    errors: &mut W,
) -> io::Result<()> {
    errors.write_text(format_args!("line {line}, column {column}{text}"))
}

#[cfg(feature = "std")]
impl JsonFault {
    // Writes the line that tells of it, without its newline.
    fn write<W: WriteText>(&self, errors: &mut W) -> io::Result<()> {
        match *self {
            JsonFault::Unexpected(line, column, byte, wanted) => {
                write_unexpected(line, column, byte, wanted, errors)
            }
            JsonFault::Ended(line, column, wanted) => write_ended(line, column, wanted, errors),
            JsonFault::NotText(line, column) => {
                write_after_place(line, column, ": not UTF-8", errors)
            }
        }
    }
}

#[cfg(feature = "std")]
impl InputFault for JsonFault {
    /// 1
    fn status(&self) -> u8 {
        1
    }

    fn write_line<W: WriteText>(&self, errors: &mut W) -> io::Result<()> {
        self.write(errors)?;
        errors.write_bytes(b"\n")
    }
}

/// A fault of one of several texts, which come one after another.
#[derive(Clone, Copy, Debug, PartialEq, Eq)]
pub struct TextFault {
    /// Which text it is, from 1.
    pub text: usize,
    /// Its fault. The line and the column are those of the input.
    pub fault: JsonFault,
}

#[cfg(feature = "std")]
impl InputFault for TextFault {
    /// 1
    fn status(&self) -> u8 {
        self.fault.status()
    }

    fn write_line<W: WriteText>(&self, errors: &mut W) -> io::Result<()> {
        if 1 < self.text {
            errors.write_text(format_args!("text {}, ", self.text))?;
        }
        self.fault.write_line(errors)
    }
}
