//! The lines of sections, sets and ranges.

use crate::fallible_elf::digits::{write_decimal, write_hex};
use crate::fallible_elf::fault::ElfFault;
use crate::fallible_elf::names::name_or_none;
use crate::fallible_elf::ranges::SetIn;
use crate::fallible_elf::section::Section;
use crate::fallible_elf::sections::sections_of;
use crate::fallible_elf::set::{Range, Set};
use crate::fallible_elf::sets::{SectionIn, has_ranges};
use fallible_iterator::FallibleIterator;
use program_io::writing::{WriteText, write_escaped};
use std::io;

// What stands on a line of its own.
trait WriteLine {
    // Writes the line.
    fn write_line<W: WriteText>(&self, writer: &mut W) -> io::Result<()>;
}

// Writes a name.
fn write_name<W: WriteText>(name: &[u8], writer: &mut W) -> io::Result<()> {
    for byte in name {
        write_escaped(*byte, writer)?;
    }
    Ok(())
}

// Writes the type and the address of a section.
fn write_type<W: WriteText>(section: &Section, writer: &mut W) -> io::Result<()> {
    write_decimal(b" type ", section.kind as u64, writer)?;
    write_hex(b" address 0x", section.address, writer)
}

// Writes the offset and the size of a section, and the word before its name.
fn write_extent<W: WriteText>(section: &Section, writer: &mut W) -> io::Result<()> {
    write_hex(b" offset 0x", section.offset, writer)?;
    write_hex(b" size 0x", section.size, writer)?;
    writer.write_bytes(b" name ")
}

// Writes the line of a section.
fn write_section<W: WriteText>(
    file: &[u8],
    number: usize,
    section: &Section,
    writer: &mut W,
) -> io::Result<()> {
    write_decimal(b"", number as u64, writer)?;
    write_type(section, writer)?;
    write_extent(section, writer)?;
    write_name(name_or_none(file, section.name), writer)?;
    writer.write_bytes(b"\n")
}

// A section of a file, and its number.
struct Numbered<'a> {
    file: &'a [u8],
    number: usize,
    section: Section,
}

impl WriteLine for Numbered<'_> {
    fn write_line<W: WriteText>(&self, writer: &mut W) -> io::Result<()> {
        write_section(self.file, self.number, &self.section, writer)
    }
}

// Writes the line of a range.
pub(crate) fn write_range<W: WriteText>(range: &Range, writer: &mut W) -> io::Result<()> {
    write_hex(b"unit 0x", range.unit, writer)?;
    write_hex(b" address 0x", range.address, writer)?;
    write_hex(b" length 0x", range.length, writer)?;
    writer.write_bytes(b"\n")
}

impl WriteLine for Set {
    fn write_line<W: WriteText>(&self, writer: &mut W) -> io::Result<()> {
        write_hex(b"unit 0x", self.unit, writer)?;
        write_hex(b" from 0x", self.place as u64, writer)?;
        write_hex(b" to 0x", self.end as u64, writer)?;
        writer.write_bytes(b"\n")
    }
}

impl WriteLine for Range {
    fn write_line<W: WriteText>(&self, writer: &mut W) -> io::Result<()> {
        write_range(self, writer)
    }
}

// Writes the lines of what an iterator yields, up to its end or its first failure.
fn write_lines<T: WriteLine, I: FallibleIterator<Item = T, Error = ElfFault>, W: WriteText>(
    mut it: I,
    writer: &mut W,
) -> io::Result<()> {
    loop {
        let item = match it.next() {
            Ok(Some(item)) => item,
            Ok(None) => return Ok(()),
            Err(_) => return Ok(()),
        };
        item.write_line(writer)?;
    }
}

// Writes a word, a count and a newline.
fn write_count<W: WriteText>(word: &[u8], count: usize, writer: &mut W) -> io::Result<()> {
    write_decimal(word, count as u64, writer)?;
    writer.write_bytes(b"\n")
}

/// Writes the sections of a file, a line for each, after their count. Of a file that has a fault there, or another count, no clause says what is written.
pub fn write_sections<W: WriteText>(file: &[u8], count: usize, writer: &mut W) -> io::Result<()> {
    write_count(b"sections ", count, writer)?;
    let numbered = sections_of(file).enumerate();
    let lines = numbered.map(|(number, section)| {
        Ok(Numbered {
            file,
            number,
            section,
        })
    });
    write_lines(lines, writer)
}

/// Writes the sets of a file, a line for each, after their count. Of a file that has a fault there, or another count, no clause says what is written.
pub fn write_sets<W: WriteText>(file: &[u8], count: usize, writer: &mut W) -> io::Result<()> {
    write_count(b"sets ", count, writer)?;
    let joined = sections_of(file)
        .filter(|section| Ok(has_ranges(file, section)))
        .flat_map(|section| Ok(SectionIn { file, section }));
    write_lines(joined, writer)
}

/// Writes the ranges of a file, a line for each, after their count. Of a file that has a fault there, or another count, no clause says what is written.
pub fn write_ranges<W: WriteText>(file: &[u8], count: usize, writer: &mut W) -> io::Result<()> {
    write_count(b"ranges ", count, writer)?;
    let sets = sections_of(file)
        .filter(|section| Ok(has_ranges(file, section)))
        .flat_map(|section| Ok(SectionIn { file, section }));
    let joined = sets.flat_map(|set| Ok(SetIn { file, set }));
    write_lines(joined, writer)
}
