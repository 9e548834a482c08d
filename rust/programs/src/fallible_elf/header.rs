//! The header of a file, and where it has its section headers.

use crate::fallible_elf::fault::{Damage, ElfFault};
use crate::fallible_elf::numbers::{u16_at, u32_at, u64_at};

/// Where a file has its section headers, and their names.
#[derive(Clone, Copy, Debug, PartialEq, Eq)]
pub struct Table {
    /// Where the first header begins.
    pub place: usize,
    /// How many headers there are, of 64 bytes each.
    pub count: usize,
    /// Where their names begin.
    pub names: usize,
    /// How many bytes these have: none, where the sections have no names.
    pub names_size: usize,
}

const NO_TABLE: Table = Table {
    place: 0,
    count: 0,
    names: 0,
    names_size: 0,
};

// Looks at the header of the file.
pub(crate) fn check_header(file: &[u8]) -> Result<(), ElfFault> {
    if !file.starts_with(&[127, 69, 76, 70]) {
        return Err(ElfFault::at(0, Damage::NotElf));
    }
    if file.len() < 64 {
        return Err(ElfFault::at(file.len(), Damage::HeaderCut));
    }
    if file[4] != 2 {
        return Err(ElfFault::at(4, Damage::NotWide));
    }
    if file[5] != 1 {
        return Err(ElfFault::at(5, Damage::NotLittleEndian));
    }
    Ok(())
}

// How many section headers there are.
fn section_count(file: &[u8], place: usize) -> usize {
    match u16_at(file, 60) {
        0 => u64_at(file, place + 32) as usize,
        count => usize::from(count),
    }
}

// The number of the section that has the names, or 0 where there are none.
fn names_number(file: &[u8], place: usize) -> usize {
    match u16_at(file, 62) {
        65535 => u32_at(file, place + 40) as usize,
        number => usize::from(number),
    }
}

// The table of so many headers, where the names are good, or there are none.
fn table_with_names(file: &[u8], place: usize, count: usize) -> Result<Table, ElfFault> {
    let number = names_number(file, place);
    if number == 0 {
        return Ok(Table {
            place,
            count,
            names: 0,
            names_size: 0,
        });
    }
    if count <= number {
        return Err(ElfFault::at(62, Damage::NamesNumber));
    }
    let header = place + 64 * number;
    let names = u64_at(file, header + 24) as usize;
    let names_size = u64_at(file, header + 32) as usize;
    if file.len() < names || file.len() - names < names_size {
        return Err(ElfFault::at(header + 24, Damage::NamesOutOfRange));
    }
    if names_size == 0 || file[names + names_size - 1] != 0 {
        return Err(ElfFault::at(header + 32, Damage::NamesNotEnded));
    }
    Ok(Table {
        place,
        count,
        names,
        names_size,
    })
}

// The table after a good header.
fn table_after_header(file: &[u8]) -> Result<Table, ElfFault> {
    let place = u64_at(file, 40) as usize;
    if place == 0 {
        return Ok(NO_TABLE);
    }
    if u16_at(file, 58) != 64 {
        return Err(ElfFault::at(58, Damage::EntrySize));
    }
    if file.len() - 64 < place {
        return Err(ElfFault::at(40, Damage::TableOutOfRange));
    }
    let count = section_count(file, place);
    if (file.len() - place) / 64 < count {
        return Err(ElfFault::at(40, Damage::TableOutOfRange));
    }
    table_with_names(file, place, count)
}

/// Where a file has its section headers, or the first fault of its header and of what that says.
pub fn table_of(file: &[u8]) -> Result<Table, ElfFault> {
    check_header(file)?;
    table_after_header(file)
}
