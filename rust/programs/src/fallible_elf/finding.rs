//! The first address range of a file that holds an address.

use crate::fallible_elf::fault::ElfFault;
use crate::fallible_elf::lines::write_range;
use crate::fallible_elf::ranges::SetIn;
use crate::fallible_elf::ranges::count_ranges;
use crate::fallible_elf::reading::read_file;
use crate::fallible_elf::sections::sections_of;
use crate::fallible_elf::set::Range;
use crate::fallible_elf::sets::{SectionIn, has_ranges};
use crate::fallible_elf::tables::{Tables, tables_of};
use fallible_iterator::FallibleIterator;
use program_io::fault::{InputFault, RunFault, fault_of_read};
use program_io::memory::Fault;
use program_io::reading::ReadBytes;
use program_io::writing::WriteText;
use std::io;

/// Why no range was found.
#[derive(Clone, Copy, Debug, PartialEq, Eq)]
pub enum FindFault {
    /// The file has this fault.
    File(ElfFault),
    /// No range of the file holds this address.
    NoRange(u64),
    /// The file has no range.
    NoRanges,
}

// Whether a range holds an address.
fn holds(address: u64, range: &Range) -> bool {
    range.address <= address && address - range.address < range.length
}

// The first range of a file that holds an address, or the first fault before.
fn first_holding(file: &[u8], address: u64) -> Result<Option<Range>, ElfFault> {
    let sets = sections_of(file)
        .filter(|section| Ok(has_ranges(file, section)))
        .flat_map(|section| Ok(SectionIn { file, section }));
    let mut joined = sets.flat_map(|set| Ok(SetIn { file, set }));
    joined.find(|range: &Range| Ok(holds(address, range)))
}

/// The first range of a file that holds an address, in the order of the report; `None` where none does, and the file's first fault, where it has one. It fails with `Memory` if an allocation fails.
pub fn range_at(file: &[u8], address: u64) -> Result<Option<Range>, Fault<ElfFault>> {
    let Tables { sections: _, found } = tables_of(file)?;
    match found {
        Ok(_) => match first_holding(file, address) {
            Ok(range) => Ok(range),
            Err(fault) => Err(Fault::Source(fault)),
        },
        Err(fault) => Err(Fault::Source(fault)),
    }
}

// Whether a file has no range.
fn has_no_ranges(file: &[u8]) -> bool {
    match count_ranges(file) {
        Ok(count) => {
            if count > 0 {
                return false;
            }
            true
        }
        Err(_) => false,
    }
}

// Writes the line of the first range of a file that holds an address.
fn find_in<W: WriteText>(
    address: u64,
    file: &[u8],
    writer: &mut W,
) -> Result<(), RunFault<FindFault>> {
    match range_at(file, address) {
        Ok(Some(range)) => match write_range(&range, writer) {
            Ok(()) => Ok(()),
            Err(error) => Err(RunFault::Write(error.into())),
        },
        Ok(None) => {
            if has_no_ranges(file) {
                return Err(RunFault::Input(FindFault::NoRanges));
            }
            Err(RunFault::Input(FindFault::NoRange(address)))
        }
        Err(Fault::Source(fault)) => Err(RunFault::Input(FindFault::File(fault))),
        Err(Fault::Memory(_)) => Err(RunFault::Memory),
    }
}

/// Reads a file up to the end of `reader`, and writes the line of its first range that holds an address, as it stands in the report. It fails with `Input` and the file's first fault, where it has one, that no range holds the address, or that it has none; with `Read` where a read fails, with `Memory` if an allocation fails, and with `Write` where the writer fails. At all but `Write` nothing is written. It looks at the header first, as `report::run` does. An interrupted read is tried again.
pub fn find<R: ReadBytes, W: WriteText>(
    address: u64,
    reader: &mut R,
    writer: &mut W,
) -> Result<(), RunFault<FindFault>> {
    match read_file(reader) {
        Ok(Ok(file)) => find_in(address, file.as_slice(), writer),
        Ok(Err(fault)) => Err(RunFault::Input(FindFault::File(fault))),
        Err(e) => Err(fault_of_read(e)),
    }
}

impl InputFault for FindFault {
    /// That of the file's fault, 7 where no range holds the address, and 8 where the file has no range.
    fn status(&self) -> u8 {
        match self {
            FindFault::File(fault) => fault.status(),
            FindFault::NoRange(_) => 7,
            FindFault::NoRanges => 8,
        }
    }

    fn write_line<W: WriteText>(&self, errors: &mut W) -> io::Result<()> {
        match self {
            FindFault::File(fault) => fault.write_line(errors),
            FindFault::NoRange(address) => {
                errors.write_text(format_args!("no range holds 0x{:x}\n", *address))
            }
            FindFault::NoRanges => {
                errors.write_bytes(b"no address ranges: no section .debug_aranges has one\n")
            }
        }
    }
}
