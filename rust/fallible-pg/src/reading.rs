//! Reading a message.

use crate::fault::Damage;
use crate::message::Message;
use crate::numbers::u32_at;
use alloc::vec::Vec;
use program_io::memory::TryVec;
use program_io::reading::{ReadByte, Unread, read_up_to};

/// Why a message wasn't read.
#[derive(Debug)]
pub enum Broken {
    /// What came is damaged.
    Damaged(Damage),
    /// A read failed.
    Read(program_io::failed::ReadFailed),
    /// An allocation failed.
    Memory,
}

// The greatest length that a message may state.
const MAX_LENGTH: u32 = 0x3fff_ffff;

// What reading broke off with, where fewer bytes came.
fn broken_by(why: Unread) -> Broken {
    match why {
        Unread::End => Broken::Damaged(Damage::Cut),
        Unread::Failed(failed) => Broken::Read(failed),
        Unread::Memory => Broken::Memory,
    }
}

// Whether a message may state this length, which counts its own four bytes and the body.
fn is_length(n: u32) -> bool {
    4 <= n && n <= MAX_LENGTH
}

/// Something that yields messages, as every reader does.
pub trait ReadMessage: ReadByte {
    /// One message, or `None` at the end. No byte after it is read, and room is taken for what has come alone, whatever length is stated. It fails if what came is damaged, if a read fails, and if an allocation does.
    ///
    /// <details><summary>Contract</summary>
    ///
    /// As it is proved, in [these words](crate::words):
    ///
    /// ```text
    /// ensures { ReadsMessage Self.left Self.stays no_room self.old result self.new }
    /// ```
    /// </details>
    fn read_message(&mut self) -> Result<Option<Message>, Broken>;
}

impl<R: ReadByte> ReadMessage for R {
    fn read_message(&mut self) -> Result<Option<Message>, Broken> {
        read_message(self)
    }
}

// Reads the tag of a message, if there is one.
fn read_tag<R: ReadByte>(reader: &mut R) -> Result<Option<Vec<u8>>, Broken> {
    let mut bytes = Vec::new();
    match reader.read_byte() {
        Ok(Some(tag)) => match bytes.try_push(tag) {
            Ok(()) => Ok(Some(bytes)),
            // No memory: a push fails only if an allocation does.
            Err(_) => Err(Broken::Memory),
        },
        Ok(None) => Ok(None),
        Err(failed) => Err(Broken::Read(failed)),
    }
}

// Reads one message, if there is one, and no byte after it.
fn read_message<R: ReadByte>(reader: &mut R) -> Result<Option<Message>, Broken> {
    let mut bytes = match read_tag(reader) {
        Ok(Some(bytes)) => bytes,
        Ok(None) => return Ok(None),
        Err(why) => return Err(why),
    };
    match read_up_to(reader, &mut bytes, 5) {
        Ok(()) => {}
        Err(why) => return Err(broken_by(why)),
    }
    let stated = u32_at(bytes.as_slice(), 1);
    if !is_length(stated) {
        return Err(Broken::Damaged(Damage::Length(stated)));
    }
    match read_up_to(reader, &mut bytes, stated as usize + 1) {
        Ok(()) => Ok(Some(Message::new(bytes))),
        Err(why) => Err(broken_by(why)),
    }
}
