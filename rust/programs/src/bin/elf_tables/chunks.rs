use program_io::memory::TryVec;
// A writer of many small texts.

use program_io::writing::WriteText;
use std::fmt::Display;
use std::io;

// From how many bytes on what is held is handed on.
const CHUNK: usize = 1 << 16;

// Hands on to a writer what is written, many bytes at once. What it still holds is handed on by `hand_on`.
pub(crate) struct Chunks<W> {
    writer: W,
    // what was written, and is not handed on yet
    held: Vec<u8>,
}

impl<W> Chunks<W> {
    // It holds nothing.
    pub(crate) fn new(writer: W) -> Chunks<W> {
        Chunks {
            writer,
            held: Vec::new(),
        }
    }
}

impl<W: WriteText> Chunks<W> {
    // Hands on what it holds. It fails if the writer does, and so never where it holds nothing.
    pub(crate) fn hand_on(&mut self) -> io::Result<()> {
        if self.held.is_empty() {
            return Ok(());
        }
        self.writer.write_bytes(self.held.as_slice())?;
        self.held.clear();
        Ok(())
    }

    // Hands on what it holds where that is many bytes.
    fn make_room(&mut self) -> io::Result<()> {
        if self.held.len() < CHUNK {
            return Ok(());
        }
        self.hand_on()
    }
}

impl<W: WriteText> WriteText for Chunks<W> {
    // Hands on what it holds, and then the text.
    fn write_text<D: Display>(&mut self, text: D) -> io::Result<()> {
        self.hand_on()?;
        self.writer.write_text(text)
    }

    // Holds the bytes. It hands them on where there is no memory for them.
    fn write_bytes(&mut self, bytes: &[u8]) -> io::Result<()> {
        self.make_room()?;
        if self.held.try_extend_from_slice(bytes).is_ok() {
            return Ok(());
        }
        self.hand_on()?;
        self.writer.write_bytes(bytes)
    }
}
