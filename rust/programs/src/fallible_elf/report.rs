//! The sections and the address ranges of a file that a reader yields, as lines of text.

use crate::fallible_elf::fault::{Damage, ElfFault};
use crate::fallible_elf::lines::{write_ranges, write_sections, write_sets};
use crate::fallible_elf::reading::read_file;
use crate::fallible_elf::tables::{Tables, tables_of};
use program_io::fault::{InputFault, RunFault, fault_of_read, write_placed};
use program_io::memory::Fault;
use program_io::reading::ReadBytes;
use program_io::writing::WriteText;
use std::io;

/// What a fault of `tables_of` is for a run.
pub fn run_fault(fault: Fault<ElfFault>) -> RunFault<ElfFault> {
    match fault {
        Fault::Source(fault) => RunFault::Input(fault),
        Fault::Memory(_) => RunFault::Memory,
    }
}

// Writes the report of a file.
fn write_tables<W: WriteText>(file: &[u8], tables: Tables, writer: &mut W) -> io::Result<()> {
    write_sections(file, tables.sections, writer)?;
    match tables.found {
        Ok(found) => {
            write_sets(file, found.sets, writer)?;
            write_ranges(file, found.ranges, writer)
        }
        Err(_) => Ok(()),
    }
}

/// Writes the sections of a file to `writer`, and then its sets and their ranges. At a fault of a section nothing is written, and at one of a set or a range the sections alone. It fails with `Input` and the file's first fault, with `Memory` if an allocation fails, before anything is written, and with `Write` where the writer fails.
pub fn report<W: WriteText>(file: &[u8], writer: &mut W) -> Result<(), RunFault<ElfFault>> {
    let tables = match tables_of(file) {
        Ok(tables) => tables,
        Err(fault) => return Err(run_fault(fault)),
    };
    if write_tables(file, tables, writer).is_err() {
        return Err(RunFault::Write(program_io::failed::WriteFailed::new()));
    }
    match tables.found {
        Ok(_) => Ok(()),
        Err(fault) => Err(RunFault::Input(fault)),
    }
}

/// Reads a file up to the end of `reader`, which may be any reader of std, and writes its report to `writer`, as `report` does. It looks at the header first: at a fault of it at most 64 bytes are read. It also fails with `Read` where a read fails, and with `Memory` if the allocation for the file fails. An interrupted read is tried again. At `Read` and `Memory` nothing is written.
pub fn run<R: ReadBytes, W: WriteText>(
    reader: &mut R,
    writer: &mut W,
) -> Result<(), RunFault<ElfFault>>
// Reading failed, and of which kind.

    // An allocation failed: as the file was read, or for the tables of a file whose header has no fault.
{
    match read_file(reader) {
        Ok(Ok(file)) => report(file.as_slice(), writer),
        Ok(Err(fault)) => Err(RunFault::Input(fault)),
        Err(e) => Err(fault_of_read(e)),
    }
}

// What is wrong, as text.
fn damage_text(damage: Damage) -> &'static str {
    match damage {
        Damage::NotElf => "no ELF file",
        Damage::HeaderCut => "the header is cut short",
        Damage::NotWide => "no file of 64 bits",
        Damage::NotLittleEndian => "numbers don't begin with their least byte",
        Damage::EntrySize => "section headers have another size than 64",
        Damage::TableOutOfRange => "section headers lie outside the file",
        Damage::NamesNumber => "no section has the names",
        Damage::NamesOutOfRange => "the names lie outside the file",
        Damage::NamesNotEnded => "the last name has no end",
        Damage::NameOutOfRange => "a section's name lies outside the names",
        Damage::NamesTooLong => "the sections' names are too long for the file",
        Damage::SetsOutOfRange => "the address ranges lie outside the file",
        Damage::SetsOverlap => "sections of address ranges overlap",
        Damage::SetsCompressed => {
            "the address ranges (.debug_aranges) are compressed: use objcopy --decompress-debug-sections"
        }
        Damage::SetsRelocated => "the lengths of the address ranges are relocated",
        Damage::SetCut => "a set of ranges is cut short",
        Damage::SetForm => "a set's length has an unknown form",
        Damage::SetVersion => "a set has an unknown version",
        Damage::AddressSize => "addresses have another size than 8",
        Damage::SegmentSize => "ranges have segments",
        Damage::RangesNotEnded => "the ranges of a set have no end",
    }
}

impl InputFault for ElfFault {
    /// 5 for a file that is no ELF file of 64 bits whose numbers begin with their least byte, 6 for one whose address ranges aren't read, and 1 for a damaged one.
    fn status(&self) -> u8 {
        match self.damage {
            Damage::NotElf | Damage::NotWide | Damage::NotLittleEndian => 5,
            Damage::SetsCompressed
            | Damage::SetsRelocated
            | Damage::SetForm
            | Damage::SetVersion
            | Damage::AddressSize
            | Damage::SegmentSize => 6,
            _ => 1,
        }
    }

    fn write_line<W: WriteText>(&self, errors: &mut W) -> io::Result<()> {
        let text = damage_text(self.damage);
        write_placed("byte", self.place as u64, text, errors)
    }
}
