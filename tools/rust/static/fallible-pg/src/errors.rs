//! What faults say, in the words that the program `pg_rows` prints of them.
use crate::fault::{Damage, PgFault};
use crate::kind::is_start;
use crate::message::Message;
use crate::printing::{PgInput, field, is_call, is_copy};
use crate::reading::Broken;
use crate::sending::Unsent;
use alloc::string::String;
use core::fmt;

impl Message {
    /// A field of a refusal or a notice, by its letter: `b'C'` is the SQLSTATE, `b'M'` the text, `b'D'` the detail. Empty where the server tells none.
    pub fn field(&self, letter: u8) -> &[u8] {
        field(letter, self.body())
    }
}

// What the server tells by a refusal.
fn refusal(message: &Message, f: &mut fmt::Formatter<'_>) -> fmt::Result {
    let text = |letter| String::from_utf8_lossy(message.field(letter));
    write!(f, "{}:  {}: {}", text(b'S'), text(b'C'), text(b'M'))?;
    for (name, letter) in [("DETAIL", b'D'), ("HINT", b'H')] {
        if !message.field(letter).is_empty() {
            write!(f, "\n{name}:  {}", text(letter))?;
        }
    }
    Ok(())
}

impl fmt::Display for Damage {
    fn fmt(&self, f: &mut fmt::Formatter<'_>) -> fmt::Result {
        match *self {
            Damage::Cut => f.write_str("the connection ended within a message"),
            Damage::Length(length) => write!(f, "a message states the length {length}"),
            Damage::Tag(tag) if is_copy(tag) => f.write_str("COPY isn't read"),
            Damage::Tag(tag) if is_start(tag) => f.write_str("a session's start isn't read"),
            Damage::Tag(tag) if is_call(tag) => f.write_str("a function's call isn't read"),
            Damage::Tag(tag) => write!(f, "a message has the unexpected tag {tag}"),
            Damage::Row => f.write_str("the cells of a row don't fill it"),
            Damage::Columns => f.write_str("the columns of a description don't fill it"),
        }
    }
}

impl fmt::Display for PgFault {
    fn fmt(&self, f: &mut fmt::Formatter<'_>) -> fmt::Result {
        match self {
            PgFault::Server(message) => refusal(message, f),
            PgFault::Damaged(place, damage) => write!(f, "byte {place}: {damage}"),
            PgFault::Read(failed) => failed.fmt(f),
            PgFault::Memory => f.write_str("no memory"),
        }
    }
}

impl fmt::Display for PgInput {
    fn fmt(&self, f: &mut fmt::Formatter<'_>) -> fmt::Result {
        match self {
            PgInput::Server(message) => refusal(message, f),
            PgInput::Damaged(place, damage) => write!(f, "byte {place}: {damage}"),
        }
    }
}

impl fmt::Display for Broken {
    fn fmt(&self, f: &mut fmt::Formatter<'_>) -> fmt::Result {
        match self {
            Broken::Damaged(damage) => damage.fmt(f),
            Broken::Read(failed) => failed.fmt(f),
            Broken::Memory => f.write_str("no memory"),
        }
    }
}

impl fmt::Display for Unsent {
    fn fmt(&self, f: &mut fmt::Formatter<'_>) -> fmt::Result {
        f.write_str(match self {
            Unsent::Long => "the message is longer than a server takes",
            Unsent::Memory => "no memory",
        })
    }
}

#[cfg(feature = "std")]
mod sources {
    use super::{Broken, Damage, PgFault, PgInput, Unsent};
    use std::error::Error;

    impl Error for Damage {}

    impl Error for Unsent {}

    impl Error for PgInput {}

    impl Error for PgFault {
        fn source(&self) -> Option<&(dyn Error + 'static)> {
            match self {
                PgFault::Read(failed) => failed.source(),
                PgFault::Server(_) | PgFault::Damaged(_, _) | PgFault::Memory => None,
            }
        }
    }

    impl Error for Broken {
        fn source(&self) -> Option<&(dyn Error + 'static)> {
            match self {
                Broken::Read(failed) => failed.source(),
                Broken::Damaged(_) | Broken::Memory => None,
            }
        }
    }
}
