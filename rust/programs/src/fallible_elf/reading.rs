//! A file that a reader yields, which is read no further where its header is that of no file of the kind.

use crate::fallible_elf::fault::ElfFault;
use crate::fallible_elf::header::check_header;
use program_io::reading::{ReadBytes, read_after};
use std::io;

// How many bytes the header has.
const HEADER: usize = 64;

// Whether the first bytes of a file tell that its header has a fault, whatever comes after them; or that it has none.
fn is_decided(begin: &[u8]) -> bool {
    begin.len() >= 64 || begin.len() >= 4 && !begin.starts_with(&[127, 69, 76, 70])
}

// Reads the first bytes, 64 at most: fewer at the end, or if the first four are not those of an ELF file. How many they are.
fn read_begin<R: ReadBytes>(reader: &mut R, begin: &mut [u8]) -> io::Result<usize> {
    let mut count = 0;
    for _ in 0..HEADER {
        if is_decided(&begin[..count]) {
            return Ok(count);
        }
        match read_after(reader, begin, count, HEADER) {
            Ok(0) => return Ok(count),
            Ok(more) => count += more,
            Err(e) => return Err(e),
        }
    }
    Ok(count)
}

/// The bytes of a file that a reader yields, up to the end, or the fault of their header. It looks at the header first: at a fault of it at most 64 bytes are read, and only the first four and what came with them where these are not those of an ELF file. It fails if a read fails, or the allocation of the bytes. An interrupted read is tried again.
pub fn read_file<R: ReadBytes>(reader: &mut R) -> io::Result<Result<Vec<u8>, ElfFault>> {
    let mut begin = [0u8; HEADER];
    let count = read_begin(reader, &mut begin)?;
    match check_header(&begin[..count]) {
        Ok(()) => match reader.read_rest(&begin[..count]) {
            Ok(file) => Ok(Ok(file)),
            Err(e) => Err(e),
        },
        Err(fault) => Ok(Err(fault)),
    }
}
