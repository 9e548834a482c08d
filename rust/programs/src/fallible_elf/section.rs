//! A section.

use crate::fallible_elf::fault::{Damage, ElfFault};
use crate::fallible_elf::numbers::{u32_at, u64_at};

/// What the header of a section says.
#[derive(Clone, Copy, Debug, PartialEq, Eq)]
pub struct Section {
    /// The place in the file where its name begins, which ends with a 0. None, where the file has no names.
    pub name: Option<usize>,
    /// Its type.
    pub kind: u32,
    /// Its flags.
    pub flags: u64,
    /// Where it lies in memory.
    pub address: u64,
    /// Where it begins in the file.
    pub offset: u64,
    /// How many bytes it has.
    pub size: u64,
}

impl Section {
    // The section whose header begins at a place, with the place of its name.
    fn at(name: Option<usize>, file: &[u8], place: usize) -> Section {
        Section {
            name,
            kind: u32_at(file, place + 4),
            flags: u64_at(file, place + 8),
            address: u64_at(file, place + 16),
            offset: u64_at(file, place + 24),
            size: u64_at(file, place + 32),
        }
    }

    // The section whose header begins at a place, where the names begin at another and have so many bytes, or the fault of its name.
    pub(crate) fn named_at(
        names: usize,
        names_size: usize,
        file: &[u8],
        place: usize,
    ) -> Result<Section, ElfFault> {
        if names_size == 0 {
            return Ok(Section::at(None, file, place));
        }
        let at = u32_at(file, place) as usize;
        if names_size <= at {
            return Err(ElfFault::at(place, Damage::NameOutOfRange));
        }
        Ok(Section::at(Some(names + at), file, place))
    }
}
