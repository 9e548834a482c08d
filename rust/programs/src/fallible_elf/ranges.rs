//! The address ranges of a file.

use crate::fallible_elf::fault::{Damage, ElfFault};
use crate::fallible_elf::numbers::u64_at;
use crate::fallible_elf::sections::sections_of;
use crate::fallible_elf::set::{Range, Set};
use crate::fallible_elf::sets::{SectionIn, has_ranges};
use fallible_iterator::{FallibleIterator, IntoFallibleIterator};
use program_io::memory::{Fault, TryCollect};

/// The ranges of a set, in their order. A draw reads one. If they have no end, it fails after the last one, and then each call returns `Ok(None)`.
pub struct Ranges<'a> {
    file: &'a [u8],
    // Where the next range begins.
    place: usize,
    // For how many there is room.
    left: usize,
    unit: u64,
    // What is returned where the room ends.
    fault: Option<ElfFault>,
}

impl FallibleIterator for Ranges<'_> {
    type Item = Range;

    type Error = ElfFault;

    fn next(&mut self) -> Result<Option<Range>, ElfFault> {
        if self.left == 0 {
            return match self.fault.take() {
                Some(fault) => Err(fault),
                None => Ok(None),
            };
        }
        let address = u64_at(self.file, self.place);
        let length = u64_at(self.file, self.place + 8);
        if address == 0 && length == 0 {
            return Ok(None);
        }
        self.left -= 1;
        self.place += 16;
        Ok(Some(Range {
            unit: self.unit,
            address,
            length,
        }))
    }

    fn size_hint(&self) -> (usize, Option<usize>) {
        (0, None)
    }
}

/// A set and the file in which it stands. It becomes the ranges of the set.
#[derive(Clone, Copy)]
pub struct SetIn<'a> {
    /// The file.
    pub file: &'a [u8],
    /// The set.
    pub set: Set,
}

impl<'a> IntoFallibleIterator for SetIn<'a> {
    type Item = Range;

    type Error = ElfFault;

    type IntoFallibleIter = Ranges<'a>;

    fn into_fallible_iter(self) -> Ranges<'a> {
        let file = self.file;
        let set = self.set;
        let left = set.end.min(file.len()).saturating_sub(set.place) / 16;
        Ranges {
            file,
            place: set.place,
            left,
            unit: set.unit,
            fault: Some(ElfFault::at(set.place + 16 * left, Damage::RangesNotEnded)),
        }
    }
}

/// The ranges of all sets of a file, or its first fault.
pub fn all_ranges(file: &[u8]) -> Result<Vec<Range>, Fault<ElfFault>> {
    let sets = sections_of(file)
        .filter(|section| Ok(has_ranges(file, section)))
        .flat_map(|section| Ok(SectionIn { file, section }));
    let joined = sets.flat_map(|set| Ok(SetIn { file, set }));
    joined.try_collect()
}

/// How many ranges the sets of a file have, or 2 ^ 64 - 1 where there are more; or its first fault.
pub fn count_ranges(file: &[u8]) -> Result<usize, ElfFault> {
    let sets = sections_of(file)
        .filter(|section| Ok(has_ranges(file, section)))
        .flat_map(|section| Ok(SectionIn { file, section }));
    let joined = sets.flat_map(|set| Ok(SetIn { file, set }));
    joined.fold(0, |count: usize, _: Range| Ok(count.saturating_add(1)))
}
