//! What is wrong with a file, and where.

/// What is wrong with a file, or why its address ranges aren't read.
#[derive(Clone, Copy, Debug, PartialEq, Eq)]
pub enum Damage {
    /// It doesn't begin as an ELF file does.
    NotElf,
    /// It ends within its header.
    HeaderCut,
    /// It is no file of 64 bits.
    NotWide,
    /// Its numbers don't begin with their least byte.
    NotLittleEndian,
    /// A section header has another size than 64 bytes.
    EntrySize,
    /// A section header would lie outside the file.
    TableOutOfRange,
    /// No section is the one that is to have the names.
    NamesNumber,
    /// The names would lie outside the file.
    NamesOutOfRange,
    /// The last name has no end.
    NamesNotEnded,
    /// A section's name would lie outside the names.
    NameOutOfRange,
    /// The names of the sections have together more than four times as many bytes as the file.
    NamesTooLong,
    /// The address ranges would lie outside the file.
    SetsOutOfRange,
    /// Two sections of address ranges have a byte in common.
    SetsOverlap,
    /// The address ranges are compressed.
    SetsCompressed,
    /// The lengths of the address ranges are relocated.
    SetsRelocated,
    /// A set of address ranges ends within its header, or outside its section.
    SetCut,
    /// A set's length is written in a form that isn't read.
    SetForm,
    /// A set has another version than 2.
    SetVersion,
    /// Addresses have another size than eight bytes.
    AddressSize,
    /// Ranges have segments.
    SegmentSize,
    /// A set's ranges have no end.
    RangesNotEnded,
}

/// A fault of a file: what is wrong, and the place of the byte at which that was met, from 0.
#[derive(Clone, Copy, Debug, PartialEq, Eq)]
pub struct ElfFault {
    /// What is wrong.
    pub damage: Damage,
    /// The place of the byte.
    pub place: usize,
}

impl ElfFault {
    // The fault at a place.
    pub(crate) const fn at(place: usize, damage: Damage) -> ElfFault {
        ElfFault { damage, place }
    }
}
