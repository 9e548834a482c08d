//! What faults say, in the words that the program `json_tokens` prints of them.
use crate::checked::TokenFault;
use crate::fault::{JsonFault, TextFault};
use crate::lexer::LexFault;
use crate::minifying::Misplaced;
use crate::wanted::Wanted;
use core::fmt;

impl fmt::Display for Wanted {
    fn fmt(&self, f: &mut fmt::Formatter<'_>) -> fmt::Result {
        f.write_str(match self {
            Wanted::Value => "a value",
            Wanted::ValueOrEnd => "a value or ']'",
            Wanted::Name => "a name",
            Wanted::NameOrEnd => "a name or '}'",
            Wanted::Colon => "':'",
            Wanted::CommaOrBracket => "',' or ']'",
            Wanted::CommaOrBrace => "',' or '}'",
            Wanted::End => "the end",
            Wanted::Character => "a character or '\"'",
            Wanted::Escaped => "an escape",
            Wanted::HexDigit => "a hexadecimal digit",
            Wanted::Digit => "a digit",
            Wanted::SignOrDigit => "a sign or a digit",
            Wanted::Letter(letter) => return write!(f, "'{}'", char::from(*letter)),
        })
    }
}

impl fmt::Display for JsonFault {
    fn fmt(&self, f: &mut fmt::Formatter<'_>) -> fmt::Result {
        match *self {
            JsonFault::Unexpected(line, column, byte, wanted) => {
                write!(f, "line {line}, column {column}: unexpected ")?;
                match byte {
                    32..=126 => write!(f, "'{}'", char::from(byte))?,
                    _ => write!(f, "byte {byte}")?,
                }
                write!(f, ", expected {wanted}")
            }
            JsonFault::Ended(line, column, wanted) => {
                write!(
                    f,
                    "line {line}, column {column}: unexpected end, expected {wanted}"
                )
            }
            JsonFault::NotText(line, column) => {
                write!(f, "line {line}, column {column}: not UTF-8")
            }
        }
    }
}

impl fmt::Display for TextFault {
    fn fmt(&self, f: &mut fmt::Formatter<'_>) -> fmt::Result {
        if 1 < self.text {
            write!(f, "text {}, ", self.text)?;
        }
        self.fault.fmt(f)
    }
}

impl<E: fmt::Display> fmt::Display for LexFault<E> {
    fn fmt(&self, f: &mut fmt::Formatter<'_>) -> fmt::Result {
        match self {
            LexFault::Source(failure) => failure.fmt(f),
            LexFault::Unknown(place) => write!(f, "byte {place} begins no token"),
            LexFault::Unfinished(last, wanted) => {
                write!(
                    f,
                    "byte {last} is the last of a token that isn't whole, expected {wanted}"
                )
            }
        }
    }
}

impl<E: fmt::Display> fmt::Display for Misplaced<E> {
    fn fmt(&self, f: &mut fmt::Formatter<'_>) -> fmt::Result {
        match self {
            Misplaced::Source(failure) => failure.fmt(f),
            Misplaced::Unexpected(place) => {
                write!(f, "the token at byte {place} may not stand there")
            }
            Misplaced::Ended => f.write_str("the tokens end where one is missing"),
        }
    }
}

impl<E: fmt::Display> fmt::Display for TokenFault<E> {
    fn fmt(&self, f: &mut fmt::Formatter<'_>) -> fmt::Result {
        match &self.why {
            Misplaced::Source(failure) => failure.fmt(f),
            why => write!(f, "{why}, expected {}", self.wanted),
        }
    }
}

#[cfg(feature = "std")]
mod sources {
    use super::{JsonFault, LexFault, Misplaced, TextFault, TokenFault};
    use std::error::Error;

    impl Error for JsonFault {}

    impl Error for TextFault {}

    // A failure of a source is shown as its own, so its source is that of the failure.
    impl<E: Error> Error for LexFault<E> {
        fn source(&self) -> Option<&(dyn Error + 'static)> {
            match self {
                LexFault::Source(failure) => failure.source(),
                LexFault::Unknown(_) | LexFault::Unfinished(_, _) => None,
            }
        }
    }

    impl<E: Error> Error for TokenFault<E> {
        fn source(&self) -> Option<&(dyn Error + 'static)> {
            self.why.source()
        }
    }

    impl<E: Error> Error for Misplaced<E> {
        fn source(&self) -> Option<&(dyn Error + 'static)> {
            match self {
                Misplaced::Source(failure) => failure.source(),
                Misplaced::Unexpected(_) | Misplaced::Ended => None,
            }
        }
    }
}
