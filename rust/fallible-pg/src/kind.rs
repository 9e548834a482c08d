//! What a message is to one who reads rows.

use crate::cells::is_row;
use crate::fault::Damage;
use crate::message::Message;

/// What a message is to one who reads rows.
#[derive(Clone, Copy, Debug, PartialEq, Eq)]
pub enum Kind {
    /// A row.
    Row,
    /// A notice of the server.
    Notice,
    /// Passed over.
    Skipped,
    /// The server refuses a statement.
    Refusal,
    /// The server is ready for the next query.
    Ready,
    /// It is damaged, or isn't read.
    Damaged(Damage),
}

// Whether messages with this tag are part of results and no row: the description of rows, the end of a statement, an empty statement, a parameter, a notification.
fn is_of_results(tag: u8) -> bool {
    tag == b'T' || tag == b'C' || tag == b'I' || tag == b'S' || tag == b'A'
}

// Whether messages with this tag are those of a prepared statement.
fn is_extended(tag: u8) -> bool {
    tag == b'1' || tag == b'2' || tag == b'3' || tag == b'n' || tag == b's' || tag == b't'
}

// Whether messages with this tag start a session: what the server asks for, the key by which a query is cancelled, or the version that it speaks.
pub(crate) fn is_start(tag: u8) -> bool {
    tag == b'R' || tag == b'K' || tag == b'v'
}

// Whether messages with this tag are skipped: in a recording also those that start a session, and the one that says the server is ready.
fn is_skipped(recorded: bool, tag: u8) -> bool {
    is_of_results(tag) || is_extended(tag) || (recorded && (is_start(tag) || tag == b'Z'))
}

// What a message is to one who reads rows, those of a recording or of one query.
pub(crate) fn kind_of(recorded: bool, message: &Message) -> Kind {
    let tag = message.tag();
    if tag == b'D' {
        if is_row(message.bytes()) {
            Kind::Row
        } else {
            Kind::Damaged(Damage::Row)
        }
    } else if is_skipped(recorded, tag) {
        Kind::Skipped
    } else if tag == b'N' {
        Kind::Notice
    } else if tag == b'E' {
        Kind::Refusal
    } else if tag == b'Z' {
        Kind::Ready
    } else {
        Kind::Damaged(Damage::Tag(tag))
    }
}
