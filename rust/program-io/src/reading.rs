//! Readers: what they yield in one read, up to a newline and up to the end; and one byte at a time, with what they hold in a buffer.

use crate::memory::TryVec;
use alloc::vec::Vec;
#[cfg(feature = "std")]
use std::io;
#[cfg(feature = "std")]
use std::io::BufRead;
#[cfg(feature = "std")]
use std::io::BufReader;
#[cfg(feature = "std")]
use std::io::ErrorKind;
#[cfg(feature = "std")]
use std::io::Read;

/// Something that yields bytes, as every reader does.
#[cfg(feature = "std")]
pub trait ReadBytes {
    /// One read, which puts bytes at the front of `buf`. How many they are: 0 at the end, or if `buf` is empty. It fails if the read fails, or is interrupted, and takes no byte then.
    fn read_once(&mut self, buf: &mut [u8]) -> io::Result<usize>;

    /// The bytes `before`, and after them all that are left. It fails if a read fails, or the allocation of the bytes. An interrupted read is tried again.
    fn read_rest(&mut self, before: &[u8]) -> io::Result<Vec<u8>>;
}

#[cfg(feature = "std")]
impl<R: Read> ReadBytes for R {
    fn read_once(&mut self, buf: &mut [u8]) -> io::Result<usize> {
        self.read(buf)
    }

    fn read_rest(&mut self, before: &[u8]) -> io::Result<Vec<u8>> {
        let mut bytes = Vec::try_from_slice(before)?;
        self.read_to_end(&mut bytes)?;
        Ok(bytes)
    }
}

/// Something that yields its first line alone, as every buffered reader does.
#[cfg(feature = "std")]
pub trait ReadLine: ReadBytes {
    /// The bytes up to the first newline, with it, or up to the end. It fails if a read fails, or the allocation of the bytes. An interrupted read is tried again.
    fn read_first_line(&mut self) -> io::Result<Vec<u8>>;
}

#[cfg(feature = "std")]
impl<R: BufRead> ReadLine for R {
    fn read_first_line(&mut self) -> io::Result<Vec<u8>> {
        let mut line = Vec::new();
        loop {
            let held = match self.fill_buf() {
                Ok(held) => held,
                Err(error) if error.kind() == ErrorKind::Interrupted => continue,
                Err(error) => return Err(error),
            };
            let end = held.iter().position(|byte| *byte == b'\n');
            let count = end.map_or(held.len(), |place| place + 1);
            line.try_extend_from_slice(&held[..count])?;
            self.consume(count);
            if end.is_some() || count == 0 {
                return Ok(line);
            }
        }
    }
}

// One read that is no interrupted one. After 2 ^ 64 - 1 of these it fails with `TimedOut`.
#[cfg(feature = "std")]
fn read_retried<R: ReadBytes>(reader: &mut R, buf: &mut [u8]) -> io::Result<usize> {
    for _ in 0..u64::MAX {
        match reader.read_once(buf) {
            Ok(count) => return Ok(count),
            Err(e) => {
                if e.kind() != ErrorKind::Interrupted {
                    return Err(e);
                }
            }
        }
    }
    Err(io::Error::from(ErrorKind::TimedOut))
}

/// One read, which puts bytes after the first `held` ones of `buf`, up to `end` at most. How many they are: 0 at the end. It fails if the read fails, and takes no byte then. An interrupted read is tried again.
///
/// Requires that there is room for one.
#[cfg(feature = "std")]
pub fn read_after<R: ReadBytes>(
    reader: &mut R,
    buf: &mut [u8],
    held: usize,
    end: usize,
) -> io::Result<usize> {
    read_retried(reader, &mut buf[held..end])
}

pub use crate::failed::ReadFailed;

/// Something that yields its bytes one at a time, as every reader does.
pub trait ReadByte: Sized {
    /// The next byte, or `None` at the end. A failed read takes no byte.
    fn read_byte(&mut self) -> Result<Option<u8>, ReadFailed>;

    /// The bytes that it holds in a buffer, and yields next.
    fn buffered(&self) -> &[u8];

    /// Takes the first `count` of the bytes that it holds in a buffer, as so many calls of `read_byte` would.
    fn consume_buffered(&mut self, count: usize);
}

// One read, for one byte. An interrupted read is tried again.
#[cfg(feature = "std")]
fn byte_of<R: ReadBytes>(reader: &mut R) -> Result<Option<u8>, ReadFailed> {
    let mut byte = [0u8; 1];
    match read_retried(reader, &mut byte) {
        Ok(0) => Ok(None),
        Ok(_) => Ok(Some(byte[0])),
        Err(error) => Err(ReadFailed::from(error)),
    }
}

#[cfg(feature = "std")]
impl<R: Read> ReadByte for R {
    fn read_byte(&mut self) -> Result<Option<u8>, ReadFailed> {
        byte_of(self)
    }

    /// None: what any reader holds is not known.
    fn buffered(&self) -> &[u8] {
        &[]
    }

    fn consume_buffered(&mut self, count: usize) {
        let _ = count;
    }
}

/// A reader that is lent. It stays the same reference, so what the reads leave is known to its owner.
#[derive(Debug)]
pub struct Lent<'a, R> {
    /// The reader.
    pub reader: &'a mut R,
}

impl<R: ReadByte> ReadByte for Lent<'_, R> {
    fn read_byte(&mut self) -> Result<Option<u8>, ReadFailed> {
        self.reader.read_byte()
    }

    fn buffered(&self) -> &[u8] {
        self.reader.buffered()
    }

    fn consume_buffered(&mut self, count: usize) {
        self.reader.consume_buffered(count)
    }
}

/// A buffered reader that tells what its buffer holds, so that what stands there whole is read at once.
#[cfg(feature = "std")]
#[derive(Debug)]
pub struct Buffered<R> {
    reader: BufReader<R>,
    // how many bytes of its buffer were yielded
    given: usize,
}

#[cfg(feature = "std")]
impl<R: Read> Buffered<R> {
    /// The bytes of `reader`. It reads nothing.
    pub fn new(reader: BufReader<R>) -> Buffered<R> {
        Buffered { reader, given: 0 }
    }
}

#[cfg(feature = "std")]
impl<R: Read> ReadByte for Buffered<R> {
    /// The next byte of the buffer. If that is empty, one read fills it, and this is what it yields.
    fn read_byte(&mut self) -> Result<Option<u8>, ReadFailed> {
        let byte = match self.reader.buffer().get(self.given) {
            Some(byte) => byte,
            _ => {
                self.reader.consume(self.given);
                self.given = 0;
                return byte_of(&mut self.reader);
            }
        };
        let byte = *byte;
        self.given += 1;
        Ok(Some(byte))
    }

    fn buffered(&self) -> &[u8] {
        let held = self.reader.buffer();
        &held[self.given.min(held.len())..]
    }

    fn consume_buffered(&mut self, count: usize) {
        self.given += count;
    }
}

/// Bytes, as a reader whose reads never fail. Of `&[u8]` as a reader that isn't known where any reader may stand.
#[derive(Clone, Debug)]
pub struct Bytes<'a> {
    bytes: &'a [u8],
}

impl<'a> Bytes<'a> {
    /// A reader of these bytes.
    pub fn new(bytes: &'a [u8]) -> Bytes<'a> {
        Bytes { bytes }
    }
}

impl ReadByte for Bytes<'_> {
    fn read_byte(&mut self) -> Result<Option<u8>, ReadFailed> {
        let (first, rest) = match self.bytes.split_first() {
            Some((first, rest)) => (first, rest),
            _ => {
                return Ok(None);
            }
        };
        self.bytes = rest;
        Ok(Some(*first))
    }

    fn buffered(&self) -> &[u8] {
        self.bytes
    }

    fn consume_buffered(&mut self, count: usize) {
        // Where none is taken, the value stays as it is.
        if count > 0 {
            self.bytes = &self.bytes[count..];
        }
    }
}

/// Why fewer bytes came than were wanted.
#[derive(Debug)]
pub enum Unread {
    /// The reader's end was met.
    End,
    /// A read failed.
    Failed(crate::failed::ReadFailed),
    /// An allocation failed.
    Memory,
}

// Reads some bytes, at most so many: all that the reader holds in its buffer, or one. No more room is asked for than what has come.
fn read_some<R: ReadByte>(reader: &mut R, bytes: &mut Vec<u8>, room: usize) -> Result<(), Unread> {
    let held = reader.buffered();
    let count = held.len().min(room);
    if count > 0 {
        // No memory: adding bytes to a vector fails only if an allocation does.
        if bytes.try_extend_from_slice(&held[..count]).is_err() {
            return Err(Unread::Memory);
        }
        reader.consume_buffered(count);
        return Ok(());
    }
    match reader.read_byte() {
        Ok(Some(byte)) => match bytes.try_push(byte) {
            Ok(()) => Ok(()),
            // No memory: a push fails only if an allocation does.
            Err(_) => Err(Unread::Memory),
        },
        Ok(None) => Err(Unread::End),
        Err(failed) => Err(Unread::Failed(failed)),
    }
}

/// Reads until `bytes` has so many. What the reader holds in its buffer is taken at once, and no more room is asked for than what has come, so a wrong number takes none. It fails at the reader's end, where a read fails, and where an allocation does; `bytes` has what came then, but for a byte that had no room.
///
/// Requires that it has no more now.
pub fn read_up_to<R: ReadByte>(
    reader: &mut R,
    bytes: &mut Vec<u8>,
    size: usize,
) -> Result<(), Unread> {
    for _ in 0..size {
        let missing = size - bytes.len();
        if missing == 0 {
            return Ok(());
        }
        match read_some(reader, bytes, missing) {
            Ok(()) => {}
            Err(why) => return Err(why),
        }
    }
    Ok(())
}
