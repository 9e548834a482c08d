//! Why no row came.

use crate::message::Message;

/// What is wrong with what a server sent.
#[derive(Clone, Copy, Debug, PartialEq, Eq)]
pub enum Damage {
    /// The bytes end within a message, or, of rows, before the server was ready.
    Cut,
    /// A message states this length, which none has.
    Length(u32),
    /// A message has this tag, which isn't read here.
    Tag(u8),
    /// A row's cells don't fill its message.
    Row,
    /// The columns of a description don't fill its message.
    Columns,
}

/// Why no row came.
#[derive(Debug)]
pub enum PgFault {
    /// The server refused a statement, by this message.
    Server(Message),
    /// What it sent is damaged: the place of the message, in bytes from 0, and how.
    Damaged(u64, Damage),
    /// A read failed.
    Read(program_io::failed::ReadFailed),
    /// An allocation failed.
    Memory,
}
