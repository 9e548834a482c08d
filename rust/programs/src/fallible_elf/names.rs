//! The names of sections.

use crate::fallible_elf::fault::{Damage, ElfFault};
use crate::fallible_elf::section::Section;
use crate::fallible_elf::sections::sections_of;
use fallible_iterator::FallibleIterator;

// How many bytes stand before the first 0.
fn length_of(bytes: &[u8]) -> usize {
    let mut end = 0;
    while end < bytes.len() && bytes[end] != 0 {
        end += 1;
    }
    end
}

/// The bytes from a place on, up to the first 0 or to the end of the file.
pub fn name_of(file: &[u8], place: usize) -> &[u8] {
    if file.len() < place {
        return &[];
    }
    let rest = &file[place..];
    &rest[..length_of(rest)]
}

/// The name that begins at a place, or no bytes where there is none.
pub fn name_or_none(file: &[u8], place: Option<usize>) -> &[u8] {
    match place {
        Some(place) => name_of(file, place),
        None => &[],
    }
}

// Where a name begins, or 0 where there is none.
fn place_or_0(place: Option<usize>) -> usize {
    match place {
        Some(place) => place,
        None => 0,
    }
}

// The room that is left after a section's name, or the fault where it has too little.
fn room_after(file: &[u8], room: u128, section: &Section) -> Result<u128, ElfFault> {
    let length = name_or_none(file, section.name).len() as u128;
    if room < length {
        return Err(ElfFault::at(place_or_0(section.name), Damage::NamesTooLong));
    }
    Ok(room - length)
}

/// Whether the names of a file's sections have together at most four times as many bytes as the file. The fault is at the first byte of the first name with which they have more. Of a file whose headers have a fault no clause says which one it returns.
pub fn check_names(file: &[u8]) -> Result<(), ElfFault> {
    let room = sections_of(file).fold(4 * file.len() as u128, |room: u128, section: Section| {
        room_after(file, room, &section)
    });
    match room {
        Ok(_) => Ok(()),
        Err(fault) => Err(fault),
    }
}
