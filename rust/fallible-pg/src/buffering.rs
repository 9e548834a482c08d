//! Messages through a buffer.
use crate::messages::Messages;
use program_io::reading::Buffered;
use std::io::{BufReader, Read};

impl<R: Read> Messages<Buffered<R>> {
    /// The messages of a reader, as a socket, through a buffer of 8 KiB. It reads nothing.
    ///
    /// A read takes what the reader has, so bytes after a message may stand in the buffer. `unbuffered` takes none of these. Std ends the program where it refuses the buffer.
    pub fn new(reader: R) -> Messages<Buffered<R>> {
        Messages::unbuffered(Buffered::new(BufReader::new(reader)))
    }
}
