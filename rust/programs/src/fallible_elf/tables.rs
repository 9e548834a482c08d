//! How much is read of a file.

use crate::fallible_elf::fault::ElfFault;
use crate::fallible_elf::names::check_names;
use crate::fallible_elf::overlaps::check_apart;
use crate::fallible_elf::ranges::count_ranges;
use crate::fallible_elf::sections::sections_of;
use crate::fallible_elf::sets::{count_sets, range_sections};
use fallible_iterator::FallibleIterator;
use program_io::memory::{AllocError, Fault};

/// How many address ranges a file has.
#[derive(Clone, Copy, Debug, PartialEq, Eq)]
pub struct Found {
    /// How many sets of address ranges.
    pub sets: usize,
    /// How many ranges all sets have.
    pub ranges: usize,
}

/// How much is read of a file.
#[derive(Clone, Copy, Debug, PartialEq, Eq)]
pub struct Tables {
    /// How many sections.
    pub sections: usize,
    /// How many address ranges, or the first fault of these.
    pub found: Result<Found, ElfFault>,
}

// How many sections a file has, or the first fault of their headers and of their names together.
fn named_sections(file: &[u8]) -> Result<usize, ElfFault> {
    let sections = sections_of(file).count()?;
    check_names(file)?;
    Ok(sections)
}

// Whether the sections of address ranges of a file lie apart, or the first fault.
fn ranges_apart(file: &[u8]) -> Result<(), Fault<ElfFault>> {
    let sections = range_sections(file)?;
    check_apart(file, sections.as_slice())
}

// Whether the counts are no bound at which they stopped.
fn is_exact(found: Found) -> bool {
    found.sets != usize::MAX && found.ranges != usize::MAX
}

// The counts, if they are exact.
fn exact(found: Found) -> Result<Found, AllocError> {
    // No memory: more than 2 ^ 64 - 1 sets or ranges, of some bytes each, have room in none.
    if !is_exact(found) {
        return Err(AllocError);
    }
    Ok(found)
}

// How many sets and ranges a file has, each up to 2 ^ 64 - 1; or their first fault.
fn counts_of(file: &[u8]) -> Result<Found, ElfFault> {
    let sets = count_sets(file)?;
    let ranges = count_ranges(file)?;
    Ok(Found { sets, ranges })
}

// How many sets and ranges a file has, or the first fault of these.
fn found_in(file: &[u8]) -> Result<Found, Fault<ElfFault>> {
    ranges_apart(file)?;
    let found = match counts_of(file) {
        Ok(found) => found,
        Err(fault) => return Err(Fault::Source(fault)),
    };
    match exact(found) {
        Ok(found) => Ok(found),
        Err(e) => Err(Fault::Memory(e)),
    }
}

/// How many sections a file has, or the first fault of these; and how many sets and ranges, or the first fault of those.
pub fn tables_of(file: &[u8]) -> Result<Tables, Fault<ElfFault>> {
    let sections = match named_sections(file) {
        Ok(sections) => sections,
        Err(fault) => return Err(Fault::Source(fault)),
    };
    match found_in(file) {
        Ok(found) => Ok(Tables {
            sections,
            found: Ok(found),
        }),
        Err(Fault::Source(fault)) => Ok(Tables {
            sections,
            found: Err(fault),
        }),
        Err(fault) => Err(fault),
    }
}
