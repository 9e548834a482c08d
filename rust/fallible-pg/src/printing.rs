//! What is told of rows that have a fault, and of notices.

use crate::fault::Damage;
use crate::kind::is_start;
use crate::message::Message;
use crate::strings::before_zero;
#[cfg(feature = "std")]
use program_io::fault::InputFault;
#[cfg(feature = "std")]
use program_io::writing::WriteText;
#[cfg(feature = "std")]
use std::io;

/// Why a run printed no more rows.
#[derive(Debug)]
pub enum PgInput {
    /// The server refused a statement, by this message.
    Server(Message),
    /// What it sent is damaged: the place of the message, in bytes from 0, and how.
    Damaged(u64, Damage),
}

// The field of a refusal that a letter names.
pub(crate) fn field(letter: u8, fields: &[u8]) -> &[u8] {
    let mut begins = true;
    for place in 0..fields.len() {
        let byte = fields[place];
        if begins && byte == letter {
            return before_zero(&fields[place + 1..]);
        }
        begins = byte == 0;
    }
    &[]
}

// Whether the tag is one of COPY.
pub(crate) fn is_copy(tag: u8) -> bool {
    tag == b'G' || tag == b'H' || tag == b'W' || tag == b'c' || tag == b'd'
}

// Whether the tag is that of what a function's call returns.
pub(crate) fn is_call(tag: u8) -> bool {
    tag == b'V'
}

// Whether a message with this tag is known, and isn't read.
fn is_known(tag: u8) -> bool {
    is_copy(tag) || is_start(tag) || is_call(tag)
}

// The status of a damage.
fn damage_status(damage: Damage) -> u8 {
    match damage {
        Damage::Cut => 6,
        Damage::Tag(tag) => {
            if is_known(tag) {
                7
            } else {
                5
            }
        }
        _ => 5,
    }
}

// Writes a further line of a refusal, under a name, where the server tells it.
#[cfg(feature = "std")]
fn write_further<W: WriteText>(name: &str, field: &[u8], errors: &mut W) -> io::Result<()> {
    if field.is_empty() {
        return Ok(());
    }
    errors.write_text(format_args!("\n{name}:  "))?;
    errors.write_bytes(field)
}

// Writes how severe a refusal is, and its SQLSTATE.
#[cfg(feature = "std")]
fn write_severity<W: WriteText>(fields: &[u8], errors: &mut W) -> io::Result<()> {
    errors.write_bytes(field(b'S', fields))?;
    errors.write_text(":  ")?;
    errors.write_bytes(field(b'C', fields))
}

// Writes what the server tells by a refusal or a notice.
#[cfg(feature = "std")]
fn write_refusal<W: WriteText>(fields: &[u8], errors: &mut W) -> io::Result<()> {
    write_severity(fields, errors)?;
    errors.write_text(": ")?;
    errors.write_bytes(field(b'M', fields))?;
    write_further("DETAIL", field(b'D', fields), errors)?;
    write_further("HINT", field(b'H', fields), errors)
}

// Writes the lines that are told of a notice.
#[cfg(feature = "std")]
pub(crate) fn write_notice<W: WriteText>(notice: &Message, errors: &mut W) -> io::Result<()> {
    write_refusal(notice.body(), errors)?;
    errors.write_bytes(b"\n")
}

// Writes what is told of a tag.
#[cfg(feature = "std")]
fn write_tag<W: WriteText>(tag: u8, errors: &mut W) -> io::Result<()> {
    if is_copy(tag) {
        return errors.write_text("COPY isn't read");
    }
    if is_start(tag) {
        return errors.write_text("a session's start isn't read");
    }
    if is_call(tag) {
        return errors.write_text("a function's call isn't read");
    }
    errors.write_text(format_args!("a message has the unexpected tag {tag}"))
}

// Writes what is told of a damage.
#[cfg(feature = "std")]
fn write_damage<W: WriteText>(damage: Damage, errors: &mut W) -> io::Result<()> {
    match damage {
        Damage::Cut => errors.write_text("the connection ended within a message"),
        Damage::Length(length) => {
            errors.write_text(format_args!("a message states the length {length}"))
        }
        Damage::Tag(tag) => write_tag(tag, errors),
        Damage::Row => errors.write_text("the cells of a row don't fill it"),
        Damage::Columns => errors.write_text("the columns of a description don't fill it"),
    }
}

#[cfg(feature = "std")]
impl PgInput {
    // Writes what is told of it.
    fn write<W: WriteText>(&self, errors: &mut W) -> io::Result<()> {
        match self {
            PgInput::Server(message) => write_refusal(message.body(), errors),
            PgInput::Damaged(place, damage) => {
                errors.write_text(format_args!("byte {place}: "))?;
                write_damage(*damage, errors)
            }
        }
    }
}

#[cfg(feature = "std")]
impl InputFault for PgInput {
    fn status(&self) -> u8 {
        match self {
            PgInput::Server(_) => 1,
            PgInput::Damaged(_, damage) => damage_status(*damage),
        }
    }

    fn write_line<W: WriteText>(&self, errors: &mut W) -> io::Result<()> {
        self.write(errors)?;
        errors.write_bytes(b"\n")
    }
}
