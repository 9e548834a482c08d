//! Sections whose bytes overlap.

use crate::fallible_elf::fault::{Damage, ElfFault};
use crate::fallible_elf::section::Section;
use program_io::memory::{Fault, TryVec};

// Marks the bytes from a place up to an end, unless one of them is marked already. Whether none was.
fn claim(marks: &mut [bool], place: usize, end: usize) -> bool {
    for at in place..end {
        if marks[at] {
            return false;
        }
        marks[at] = true;
    }
    true
}

// Marks the bytes of a section that lies in the file, unless one of them is marked already. Whether none was.
fn claim_section(marks: &mut [bool], file: &[u8], section: &Section) -> bool {
    let place = section.offset as usize;
    let size = section.size as usize;
    if file.len() < place || file.len() - place < size {
        return true;
    }
    claim(marks, place, place + size)
}

// Marks the bytes of each section that lies in the file, up to the first one that has a byte which is marked already.
fn claim_each(marks: &mut [bool], file: &[u8], sections: &[Section]) -> Result<(), ElfFault> {
    for section in sections {
        if !claim_section(marks, file, section) {
            return Err(ElfFault::at(section.offset as usize, Damage::SetsOverlap));
        }
    }
    Ok(())
}

/// Whether no two of these sections have a byte of the file in common, among those that lie in it. The fault is at the first byte of the first section that shares one with a section before it. It fails with `Memory` if its allocation fails: of two sections or more it marks the bytes, one byte for each of the file.
pub fn check_apart(file: &[u8], sections: &[Section]) -> Result<(), Fault<ElfFault>> {
    if sections.len() < 2 {
        return Ok(());
    }
    let mut marks = match Vec::try_filled(false, file.len()) {
        Ok(marks) => marks,
        Err(e) => return Err(Fault::Memory(e)),
    };
    match claim_each(&mut marks, file, sections) {
        Ok(()) => Ok(()),
        Err(fault) => Err(Fault::Source(fault)),
    }
}
