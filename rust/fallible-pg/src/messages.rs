//! The messages of a reader.

use crate::fault::PgFault;
use crate::message::Message;
use crate::reading::{Broken, ReadMessage};
use fallible_iterator::FallibleIterator;

/// The messages of a reader, as a server sends them: each is its tag, its length and its body.
///
/// A draw reads the bytes of one message, one at a time or by what stands in the reader's buffer, and none of the next. It takes room for what has come alone, whatever length is stated. They end where the bytes end between two messages. Where the bytes end within one it fails with `Damaged` and `Cut`, at a length that no message has with `Damaged` and `Length`, and with `Read` and `Memory`. After 2 ^ 63 bytes it fails with `Read`. After the end and after a fault each call returns `Ok(None)` and reads no more.
#[derive(Debug)]
pub struct Messages<R> {
    reader: R,
    // how many bytes were read; none after the end and after a fault
    place: Option<u64>,
}

// After so many bytes nothing more is read.
const MAX_PLACE: u64 = 0x8000_0000_0000_0000;

impl<R: ReadMessage> Messages<R> {
    /// The messages of this reader, with no buffer before it: a reader of std is asked for one byte a call, and no byte after a message is read. It reads nothing.
    pub fn unbuffered(reader: R) -> Messages<R> {
        Messages {
            reader,
            place: Some(0),
        }
    }

    // How many bytes were read; 0 after the end and after a fault.
    pub(crate) fn place(&self) -> u64 {
        self.place.unwrap_or(0)
    }
}

impl<R: ReadMessage> FallibleIterator for Messages<R> {
    type Item = Message;

    type Error = PgFault;

    fn next(&mut self) -> Result<Option<Message>, PgFault> {
        let place = match self.place.take() {
            Some(place) => place,
            _ => {
                return Ok(None);
            }
        };
        if place > MAX_PLACE {
            return Err(PgFault::Read(program_io::failed::ReadFailed::new()));
        }
        match self.reader.read_message() {
            Ok(Some(message)) => {
                self.place = Some(place + message.bytes().len() as u64);
                Ok(Some(message))
            }
            Ok(None) => Ok(None),
            Err(Broken::Damaged(damage)) => Err(PgFault::Damaged(place, damage)),
            Err(Broken::Read(failed)) => Err(PgFault::Read(failed)),
            Err(Broken::Memory) => Err(PgFault::Memory),
        }
    }

    fn size_hint(&self) -> (usize, Option<usize>) {
        (0, None)
    }
}
