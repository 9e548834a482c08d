//! The sets of address ranges of a file.

use crate::fallible_elf::fault::{Damage, ElfFault};
use crate::fallible_elf::numbers::u16_at;
use crate::fallible_elf::section::Section;
use crate::fallible_elf::sections::sections_of;
use crate::fallible_elf::set::{Region, Set};
use fallible_iterator::{FallibleIterator, IntoFallibleIterator};
use program_io::memory::{Fault, TryCollect};

// Whether this is the place of the name `.debug_aranges`.
fn names_ranges(file: &[u8], name: Option<usize>) -> bool {
    match name {
        Some(place) => place <= file.len() && file[place..].starts_with(b".debug_aranges\0"),
        None => false,
    }
}

// Whether this is the place of the name `.zdebug_aranges`.
fn names_packed_ranges(file: &[u8], name: Option<usize>) -> bool {
    match name {
        Some(place) => place <= file.len() && file[place..].starts_with(b".zdebug_aranges\0"),
        None => false,
    }
}

// Whether a section has address ranges.
pub(crate) fn has_ranges(file: &[u8], section: &Section) -> bool {
    section.kind == 1
        && (names_ranges(file, section.name) || names_packed_ranges(file, section.name))
}

// Whether a section is compressed.
fn is_compressed(file: &[u8], section: &Section) -> bool {
    section.flags / 2048 % 2 == 1 || names_packed_ranges(file, section.name)
}

// Whether the file's linker still has to write the lengths of ranges.
fn relocates_lengths(file: &[u8]) -> bool {
    file.len() >= 20
        && u16_at(file, 16) == 1
        && (u16_at(file, 18) == 243 || u16_at(file, 18) == 258)
}

// The bytes of a section.
fn region_of(file: &[u8], section: &Section) -> Result<Region, ElfFault> {
    let place = section.offset as usize;
    let size = section.size as usize;
    if file.len() < place || file.len() - place < size {
        return Err(ElfFault::at(place, Damage::SetsOutOfRange));
    }
    if is_compressed(file, section) {
        return Err(ElfFault::at(place, Damage::SetsCompressed));
    }
    if relocates_lengths(file) {
        return Err(ElfFault::at(place, Damage::SetsRelocated));
    }
    Ok(Region {
        place,
        end: place + size,
    })
}

/// The sets of a section, in their order. A draw reads the header of one set. After a fault each call returns `Ok(None)`. If the section has a fault before its sets, that is the one result before that.
pub struct Sets<'a> {
    file: &'a [u8],
    // Where the next set begins.
    place: usize,
    // Where their section ends.
    end: usize,
    // What is returned after the last set.
    fault: Option<ElfFault>,
}

impl FallibleIterator for Sets<'_> {
    type Item = Set;

    type Error = ElfFault;

    fn next(&mut self) -> Result<Option<Set>, ElfFault> {
        if self.end <= self.place {
            return match self.fault.take() {
                Some(fault) => Err(fault),
                None => Ok(None),
            };
        }
        match Set::read_at(self.file, self.end, self.place) {
            Ok(set) => {
                self.place = set.end;
                Ok(Some(set))
            }
            Err(fault) => {
                self.place = self.end;
                self.fault = None;
                Err(fault)
            }
        }
    }

    fn size_hint(&self) -> (usize, Option<usize>) {
        (0, None)
    }
}

/// A section that has address ranges, and the file in which it stands. It becomes the sets of the section.
#[derive(Clone, Copy)]
pub struct SectionIn<'a> {
    /// The file.
    pub file: &'a [u8],
    /// The section.
    pub section: Section,
}

impl<'a> IntoFallibleIterator for SectionIn<'a> {
    type Item = Set;

    type Error = ElfFault;

    type IntoFallibleIter = Sets<'a>;

    fn into_fallible_iter(self) -> Sets<'a> {
        let file = self.file;
        let region = match region_of(file, &self.section) {
            Ok(region) => region,
            Err(fault) => {
                return Sets {
                    file,
                    place: 0,
                    end: 0,
                    fault: Some(fault),
                };
            }
        };
        Sets {
            file,
            place: region.place,
            end: region.end,
            fault: None,
        }
    }
}

/// The sections of a file that have address ranges, or its first fault.
pub fn range_sections(file: &[u8]) -> Result<Vec<Section>, Fault<ElfFault>> {
    sections_of(file)
        .filter(|section| Ok(has_ranges(file, section)))
        .try_collect()
}

/// The sets of all sections of a file that have address ranges, or its first fault.
pub fn all_sets(file: &[u8]) -> Result<Vec<Set>, Fault<ElfFault>> {
    let joined = sections_of(file)
        .filter(|section| Ok(has_ranges(file, section)))
        .flat_map(|section| Ok(SectionIn { file, section }));
    joined.try_collect()
}

/// How many sets the sections of a file have that have address ranges, or 2 ^ 64 - 1 where there are more; or its first fault.
pub fn count_sets(file: &[u8]) -> Result<usize, ElfFault> {
    let joined = sections_of(file)
        .filter(|section| Ok(has_ranges(file, section)))
        .flat_map(|section| Ok(SectionIn { file, section }));
    joined.fold(0, |count: usize, _: Set| Ok(count.saturating_add(1)))
}
