//! A set of address ranges.

use crate::fallible_elf::fault::{Damage, ElfFault};
use crate::fallible_elf::numbers::{u16_at, u32_at, u64_at};

/// Bytes of a file.
#[derive(Clone, Copy, Debug, PartialEq, Eq)]
pub struct Region {
    /// Where they begin.
    pub place: usize,
    /// Where they end.
    pub end: usize,
}

/// A set: the address ranges of a unit.
#[derive(Clone, Copy, Debug, PartialEq, Eq)]
pub struct Set {
    /// The offset of the unit in the section `.debug_info`.
    pub unit: u64,
    /// Where its ranges begin in the file.
    pub place: usize,
    /// Where it ends.
    pub end: usize,
}

/// Addresses of a unit.
#[derive(Clone, Copy, Debug, PartialEq, Eq)]
pub struct Range {
    /// The offset of the unit in the section `.debug_info`.
    pub unit: u64,
    /// The first address.
    pub address: u64,
    /// How many addresses there are.
    pub length: u64,
}

impl Set {
    // The set of 32-bit DWARF at a place of a section that ends at `limit`, or its first fault.
    fn dwarf32_at(file: &[u8], limit: usize, place: usize) -> Result<Set, ElfFault> {
        let length = u32_at(file, place) as usize;
        if length < 12 || limit - place - 4 < length {
            return Err(ElfFault::at(place, Damage::SetCut));
        }
        if u16_at(file, place + 4) != 2 {
            return Err(ElfFault::at(place + 4, Damage::SetVersion));
        }
        if file[place + 10] != 8 {
            return Err(ElfFault::at(place + 10, Damage::AddressSize));
        }
        if file[place + 11] != 0 {
            return Err(ElfFault::at(place + 11, Damage::SegmentSize));
        }
        Ok(Set {
            unit: u64::from(u32_at(file, place + 6)),
            place: place + 16,
            end: place + 4 + length,
        })
    }

    // The set of 64-bit DWARF at a place of a section that ends at `limit`, or its first fault.
    fn dwarf64_at(file: &[u8], limit: usize, place: usize) -> Result<Set, ElfFault> {
        if limit - place < 32 {
            return Err(ElfFault::at(place, Damage::SetCut));
        }
        let length = u64_at(file, place + 4) as usize;
        if length < 20 || limit - place - 12 < length {
            return Err(ElfFault::at(place, Damage::SetCut));
        }
        if u16_at(file, place + 12) != 2 {
            return Err(ElfFault::at(place + 12, Damage::SetVersion));
        }
        if file[place + 22] != 8 {
            return Err(ElfFault::at(place + 22, Damage::AddressSize));
        }
        if file[place + 23] != 0 {
            return Err(ElfFault::at(place + 23, Damage::SegmentSize));
        }
        Ok(Set {
            unit: u64_at(file, place + 14),
            place: place + 32,
            end: place + 12 + length,
        })
    }

    // The set at a place of a section that ends at `limit`, or its first fault.
    pub(crate) fn read_at(file: &[u8], limit: usize, place: usize) -> Result<Set, ElfFault> {
        if limit - place < 16 {
            return Err(ElfFault::at(place, Damage::SetCut));
        }
        let length = u32_at(file, place);
        if length == 0xffff_ffff {
            return Set::dwarf64_at(file, limit, place);
        }
        if length >= 0xffff_fff0 {
            return Err(ElfFault::at(place, Damage::SetForm));
        }
        Set::dwarf32_at(file, limit, place)
    }
}
