//! What could come where a text has a fault.

use crate::token::Phase;
#[cfg(feature = "std")]
use program_io::writing::WriteText;
#[cfg(feature = "std")]
use std::io;

/// What could come where a text has a fault: tokens, or bytes that go on with one.
#[derive(Clone, Copy, Debug, PartialEq, Eq)]
pub enum Wanted {
    /// A value.
    Value,
    /// A value, or the end of an array.
    ValueOrEnd,
    /// A name.
    Name,
    /// A name, or the end of an object.
    NameOrEnd,
    /// The colon after a name.
    Colon,
    /// A comma, or the end of an array.
    CommaOrBracket,
    /// A comma, or the end of an object.
    CommaOrBrace,
    /// The end of the text.
    End,
    /// A character of a string, or its last quote.
    Character,
    /// What comes after a backslash.
    Escaped,
    /// A hexadecimal digit.
    HexDigit,
    /// A digit.
    Digit,
    /// The sign of an exponent, or a digit.
    SignOrDigit,
    /// This letter of a literal.
    Letter(u8),
}

// The bytes that go on with a token that isn't whole.
pub(crate) fn wanted_in(phase: Phase) -> Wanted {
    match phase {
        Phase::Inside => Wanted::Character,
        Phase::Escape => Wanted::Escaped,
        Phase::FourDigits | Phase::ThreeDigits | Phase::TwoDigits | Phase::OneDigit => {
            Wanted::HexDigit
        }
        Phase::Exponent => Wanted::SignOrDigit,
        Phase::T => Wanted::Letter(b'r'),
        Phase::Tr | Phase::N => Wanted::Letter(b'u'),
        Phase::Tru | Phase::Fals => Wanted::Letter(b'e'),
        Phase::F => Wanted::Letter(b'a'),
        Phase::Fa | Phase::Nu | Phase::Nul => Wanted::Letter(b'l'),
        Phase::Fal => Wanted::Letter(b's'),
        _ => Wanted::Digit,
    }
}

// Writes that a letter could come.
#[cfg(feature = "std")]
fn write_letter<W: WriteText>(letter: u8, errors: &mut W) -> io::Result<()> {
    errors.write_text(", expected '")?;
    errors.write_bytes(&[letter, b'\''])
}

#[cfg(feature = "std")]
impl Wanted {
    // Writes that this could come.
    pub(crate) fn write<W: WriteText>(self, errors: &mut W) -> io::Result<()> {
        match self {
            Wanted::Value => errors.write_text(", expected a value"),
            Wanted::ValueOrEnd => errors.write_text(", expected a value or ']'"),
            Wanted::Name => errors.write_text(", expected a name"),
            Wanted::NameOrEnd => errors.write_text(", expected a name or '}'"),
            Wanted::Colon => errors.write_text(", expected ':'"),
            Wanted::CommaOrBracket => errors.write_text(", expected ',' or ']'"),
            Wanted::CommaOrBrace => errors.write_text(", expected ',' or '}'"),
            Wanted::End => errors.write_text(", expected the end"),
            Wanted::Character => errors.write_text(", expected a character or '\"'"),
            Wanted::Escaped => errors.write_text(", expected an escape"),
            Wanted::HexDigit => errors.write_text(", expected a hexadecimal digit"),
            Wanted::Digit => errors.write_text(", expected a digit"),
            Wanted::SignOrDigit => errors.write_text(", expected a sign or a digit"),
            Wanted::Letter(letter) => write_letter(letter, errors),
        }
    }
}
