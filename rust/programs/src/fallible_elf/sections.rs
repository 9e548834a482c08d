//! The sections of a file.

use crate::fallible_elf::fault::ElfFault;
use crate::fallible_elf::header::table_of;
use crate::fallible_elf::section::Section;
use fallible_iterator::FallibleIterator;
use program_io::memory::{Fault, TryCollect};

/// The sections of a file, in the order of their headers. A draw reads one header, and fails where the name is damaged; the next draw goes on with the next header. Where the file has a fault before its headers, that is the one result before `Ok(None)`.
pub struct Sections<'a> {
    file: &'a [u8],
    // Where the next header begins.
    place: usize,
    // How many headers are left.
    left: usize,
    names: usize,
    names_size: usize,
    // What is returned after the last header.
    fault: Option<ElfFault>,
}

impl FallibleIterator for Sections<'_> {
    type Item = Section;

    type Error = ElfFault;

    fn next(&mut self) -> Result<Option<Section>, ElfFault> {
        if self.left == 0 {
            return match self.fault.take() {
                Some(fault) => Err(fault),
                None => Ok(None),
            };
        }
        let place = self.place;
        self.left -= 1;
        self.place += 64;
        match Section::named_at(self.names, self.names_size, self.file, place) {
            Ok(section) => Ok(Some(section)),
            Err(fault) => Err(fault),
        }
    }

    fn size_hint(&self) -> (usize, Option<usize>) {
        (0, None)
    }
}

/// The sections of a file. Creating them reads where the headers are, and none of them.
pub fn sections_of<'a>(file: &'a [u8]) -> Sections<'a> {
    let table = match table_of(file) {
        Ok(table) => table,
        Err(fault) => {
            return Sections {
                file,
                place: 0,
                left: 0,
                names: 0,
                names_size: 0,
                fault: Some(fault),
            };
        }
    };
    Sections {
        file,
        place: table.place,
        left: table.count,
        names: table.names,
        names_size: table.names_size,
        fault: None,
    }
}

/// The sections of a file, all of them, or its first fault.
pub fn all_sections(file: &[u8]) -> Result<Vec<Section>, Fault<ElfFault>> {
    sections_of(file).try_collect()
}
