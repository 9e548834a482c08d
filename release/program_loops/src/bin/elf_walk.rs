//! Walks an ELF file as `release/elf_walk` does, by plain loops, and prints the same sum or the same fault.
//!
//! Its first word says how it walks, and its second how often. Each walk is a function of its own, so that none takes
//! registers of another.
use std::env;
use std::io::{self, Read};

/// What is wrong with a file.
#[derive(Debug)]
enum Damage {
    NotElf,
    HeaderCut,
    NotWide,
    NotLittleEndian,
    EntrySize,
    TableOutOfRange,
    NamesNumber,
    NamesOutOfRange,
    NamesNotEnded,
    NameOutOfRange,
    SetsOutOfRange,
    SetsCompressed,
    SetsRelocated,
    SetCut,
    SetForm,
    SetVersion,
    AddressSize,
    SegmentSize,
    RangesNotEnded,
}

/// A fault, and the place of the byte where it was met.
struct ElfFault {
    damage: Damage,
    place: usize,
}

/// The failure at a place.
fn fault<T>(place: usize, damage: Damage) -> Result<T, ElfFault> {
    Err(ElfFault { damage, place })
}

/// A section.
#[derive(Clone, Copy)]
struct Section {
    name: Option<usize>,
    kind: u32,
    flags: u64,
    address: u64,
    offset: u64,
    size: u64,
}

/// A set of address ranges: the offset of its unit, where its ranges begin, and where it ends.
struct Set {
    unit: u64,
    place: usize,
    end: usize,
}

/// An address range.
#[derive(Clone, Copy)]
struct Range {
    unit: u64,
    address: u64,
    length: u64,
}

/// Where a file has its section headers, and their names.
struct Table {
    place: usize,
    count: usize,
    names: usize,
    names_size: usize,
}

fn u16_at(bytes: &[u8], place: usize) -> u16 {
    u16::from_le_bytes(bytes[place..place + 2].try_into().unwrap())
}

fn u32_at(bytes: &[u8], place: usize) -> u32 {
    u32::from_le_bytes(bytes[place..place + 4].try_into().unwrap())
}

fn u64_at(bytes: &[u8], place: usize) -> u64 {
    u64::from_le_bytes(bytes[place..place + 8].try_into().unwrap())
}

/// Looks at the header of a file.
fn check_header(file: &[u8]) -> Result<(), ElfFault> {
    if !file.starts_with(b"\x7fELF") {
        return fault(0, Damage::NotElf);
    }
    if file.len() < 64 {
        return fault(file.len(), Damage::HeaderCut);
    }
    if file[4] != 2 {
        return fault(4, Damage::NotWide);
    }
    if file[5] != 1 {
        return fault(5, Damage::NotLittleEndian);
    }
    Ok(())
}

/// Where the names of so many headers from a place on begin, and how many bytes they have.
fn names_of(file: &[u8], place: usize, count: usize) -> Result<(usize, usize), ElfFault> {
    let number = match u16_at(file, 62) {
        65535 => u32_at(file, place + 40) as usize,
        number => usize::from(number),
    };
    if number == 0 {
        return Ok((0, 0));
    }
    if count <= number {
        return fault(62, Damage::NamesNumber);
    }
    let header = place + 64 * number;
    let names = u64_at(file, header + 24) as usize;
    let size = u64_at(file, header + 32) as usize;
    if file.len() < names || file.len() - names < size {
        return fault(header + 24, Damage::NamesOutOfRange);
    }
    if size == 0 || file[names + size - 1] != 0 {
        return fault(header + 32, Damage::NamesNotEnded);
    }
    Ok((names, size))
}

/// Where a file has its section headers.
fn table_of(file: &[u8]) -> Result<Table, ElfFault> {
    check_header(file)?;
    let place = u64_at(file, 40) as usize;
    if place == 0 {
        return Ok(Table {
            place: 0,
            count: 0,
            names: 0,
            names_size: 0,
        });
    }
    if u16_at(file, 58) != 64 {
        return fault(58, Damage::EntrySize);
    }
    if file.len() - 64 < place {
        return fault(40, Damage::TableOutOfRange);
    }
    let count = match u16_at(file, 60) {
        0 => u64_at(file, place + 32) as usize,
        count => usize::from(count),
    };
    if (file.len() - place) / 64 < count {
        return fault(40, Damage::TableOutOfRange);
    }
    let (names, names_size) = names_of(file, place, count)?;
    Ok(Table {
        place,
        count,
        names,
        names_size,
    })
}

/// The section of a header, or None where its name is damaged.
fn section_of(table: &Table, header: &[u8; 64]) -> Option<Section> {
    let name = match table.names_size {
        0 => None,
        size => {
            let at = u32_at(header, 0) as usize;
            if size <= at {
                return None;
            }
            Some(table.names + at)
        }
    };
    Some(Section {
        name,
        kind: u32_at(header, 4),
        flags: u64_at(header, 8),
        address: u64_at(header, 16),
        offset: u64_at(header, 24),
        size: u64_at(header, 32),
    })
}

/// The headers of a file's sections.
fn headers_of<'a>(file: &'a [u8], table: &Table) -> &'a [[u8; 64]] {
    file[table.place..table.place + 64 * table.count]
        .as_chunks()
        .0
}

/// A sum, and the fields of all sections.
#[inline(never)]
fn with_sections(file: &[u8], mut sum: u64) -> Result<u64, ElfFault> {
    let table = table_of(file)?;
    for (number, header) in headers_of(file, &table).iter().enumerate() {
        let Some(section) = section_of(&table, header) else {
            return fault(table.place + 64 * number, Damage::NameOutOfRange);
        };
        sum = with_section(sum, &section);
    }
    Ok(sum)
}

/// All sections.
#[inline(never)]
fn all_sections(file: &[u8]) -> Result<Vec<Section>, ElfFault> {
    let table = table_of(file)?;
    let mut all = Vec::new();
    for (number, header) in headers_of(file, &table).iter().enumerate() {
        let Some(section) = section_of(&table, header) else {
            return fault(table.place + 64 * number, Damage::NameOutOfRange);
        };
        all.push(section);
    }
    Ok(all)
}

/// A sum, and the fields of a section.
fn with_section(sum: u64, section: &Section) -> u64 {
    sum.wrapping_add(section.name.unwrap_or(0) as u64)
        .wrapping_add(u64::from(section.kind))
        .wrapping_add(section.flags)
        .wrapping_add(section.address)
        .wrapping_add(section.offset)
        .wrapping_add(section.size)
}

/// Whether this is the place of a name.
fn is_named(file: &[u8], name: Option<usize>, wanted: &[u8]) -> bool {
    name.is_some_and(|place| file[place..].starts_with(wanted))
}

/// Whether this is the place of the name of address ranges that are compressed.
fn names_packed_ranges(file: &[u8], name: Option<usize>) -> bool {
    is_named(file, name, b".zdebug_aranges\0")
}

/// Whether a section has address ranges.
fn has_ranges(file: &[u8], section: &Section) -> bool {
    section.kind == 1
        && (is_named(file, section.name, b".debug_aranges\0")
            || names_packed_ranges(file, section.name))
}

/// Whether the file's linker still has to write the lengths of ranges.
fn relocates_lengths(file: &[u8]) -> bool {
    u16_at(file, 16) == 1 && matches!(u16_at(file, 18), 243 | 258)
}

/// Where the bytes of a section begin and end.
fn region_of(file: &[u8], section: &Section) -> Result<(usize, usize), ElfFault> {
    let place = section.offset as usize;
    let size = section.size as usize;
    if file.len() < place || file.len() - place < size {
        return fault(place, Damage::SetsOutOfRange);
    }
    if section.flags / 2048 % 2 == 1 || names_packed_ranges(file, section.name) {
        return fault(place, Damage::SetsCompressed);
    }
    if relocates_lengths(file) {
        return fault(place, Damage::SetsRelocated);
    }
    Ok((place, place + size))
}

/// Looks at the version of a set, at a place, and at the sizes of an address and of a segment, at another.
fn check_sizes(file: &[u8], version: usize, sizes: usize) -> Result<(), ElfFault> {
    if u16_at(file, version) != 2 {
        return fault(version, Damage::SetVersion);
    }
    if file[sizes] != 8 {
        return fault(sizes, Damage::AddressSize);
    }
    if file[sizes + 1] != 0 {
        return fault(sizes + 1, Damage::SegmentSize);
    }
    Ok(())
}

/// The set at a place, whose length is told in eight bytes, of a section that ends at `limit`.
fn long_set_at(file: &[u8], limit: usize, place: usize) -> Result<Set, ElfFault> {
    if limit - place < 32 {
        return fault(place, Damage::SetCut);
    }
    let length = u64_at(file, place + 4) as usize;
    if length < 20 || limit - place - 12 < length {
        return fault(place, Damage::SetCut);
    }
    check_sizes(file, place + 12, place + 22)?;
    Ok(Set {
        unit: u64_at(file, place + 14),
        place: place + 32,
        end: place + 12 + length,
    })
}

/// The set at a place of a section that ends at `limit`.
fn set_at(file: &[u8], limit: usize, place: usize) -> Result<Set, ElfFault> {
    if limit - place < 16 {
        return fault(place, Damage::SetCut);
    }
    let length = match u32_at(file, place) {
        0xffff_ffff => return long_set_at(file, limit, place),
        0xffff_fff0.. => return fault(place, Damage::SetForm),
        length => length as usize,
    };
    if length < 12 || limit - place - 4 < length {
        return fault(place, Damage::SetCut);
    }
    check_sizes(file, place + 4, place + 10)?;
    Ok(Set {
        unit: u64::from(u32_at(file, place + 6)),
        place: place + 16,
        end: place + 4 + length,
    })
}

/// Calls `with` for each set of a file.
fn each_set(
    file: &[u8],
    mut with: impl FnMut(Set) -> Result<(), ElfFault>,
) -> Result<(), ElfFault> {
    let table = table_of(file)?;
    for (number, header) in headers_of(file, &table).iter().enumerate() {
        let Some(section) = section_of(&table, header) else {
            return fault(table.place + 64 * number, Damage::NameOutOfRange);
        };
        if !has_ranges(file, &section) {
            continue;
        }
        let (mut place, end) = region_of(file, &section)?;
        while place < end {
            let set = set_at(file, end, place)?;
            place = set.end;
            with(set)?;
        }
    }
    Ok(())
}

/// The range of a set in sixteen bytes, or None at the end of the ranges.
fn range_of(set: &Set, bytes: &[u8; 16]) -> Option<Range> {
    let range = Range {
        unit: set.unit,
        address: u64_at(bytes, 0),
        length: u64_at(bytes, 8),
    };
    (range.address != 0 || range.length != 0).then_some(range)
}

/// The bytes of a set's ranges, sixteen at a time.
fn pairs_of<'a>(file: &'a [u8], set: &Set) -> &'a [[u8; 16]] {
    file[set.place..set.end].as_chunks().0
}

/// The fault of a set whose ranges have no end.
fn not_ended<T>(set: &Set) -> Result<T, ElfFault> {
    fault(
        set.place + (set.end - set.place) / 16 * 16,
        Damage::RangesNotEnded,
    )
}

/// A sum, and the fields of the ranges of a set.
fn with_ranges(file: &[u8], set: &Set, mut sum: u64) -> Result<u64, ElfFault> {
    for bytes in pairs_of(file, set) {
        match range_of(set, bytes) {
            Some(range) => sum = with_range(sum, &range),
            None => return Ok(sum),
        }
    }
    not_ended(set)
}

/// Appends the ranges of a set.
fn push_ranges(file: &[u8], set: &Set, all: &mut Vec<Range>) -> Result<(), ElfFault> {
    for bytes in pairs_of(file, set) {
        match range_of(set, bytes) {
            Some(range) => all.push(range),
            None => return Ok(()),
        }
    }
    not_ended(set)
}

/// A sum, and the fields of a range.
fn with_range(sum: u64, range: &Range) -> u64 {
    sum.wrapping_add(range.unit)
        .wrapping_add(range.address)
        .wrapping_add(range.length)
}

/// A sum, and the fields of all ranges.
#[inline(never)]
fn with_all_ranges(file: &[u8], mut sum: u64) -> Result<u64, ElfFault> {
    each_set(file, |set| {
        sum = with_ranges(file, &set, sum)?;
        Ok(())
    })?;
    Ok(sum)
}

/// All ranges.
#[inline(never)]
fn all_ranges(file: &[u8]) -> Result<Vec<Range>, ElfFault> {
    let mut all = Vec::new();
    each_set(file, |set| push_ranges(file, &set, &mut all))?;
    Ok(all)
}

/// The sum of so many walks. Of vectors, the items of the last one are added up.
fn walked(way: &str, rounds: u64, file: &[u8]) -> Result<u64, ElfFault> {
    let mut sum = 0;
    let mut sections = Vec::new();
    let mut ranges = Vec::new();
    for _ in 0..rounds {
        match way {
            "sections_fold" => sum = with_sections(file, sum)?,
            "sections_collect" => sections = all_sections(file)?,
            "ranges_fold" => sum = with_all_ranges(file, sum)?,
            _ => ranges = all_ranges(file)?,
        }
    }
    let once = sections.iter().fold(0, with_section);
    let once = ranges.iter().fold(once, with_range);
    Ok(sum.wrapping_add(once.wrapping_mul(rounds)))
}

/// The way and the rounds that the words say.
fn read_task() -> Option<(String, u64)> {
    let mut words = env::args().skip(1);
    let way = words.next()?;
    let ways = [
        "sections_fold",
        "sections_collect",
        "ranges_fold",
        "ranges_collect",
    ];
    if !ways.contains(&way.as_str()) {
        return None;
    }
    Some((way, words.next()?.parse().ok()?))
}

fn main() -> io::Result<()> {
    let Some((way, rounds)) = read_task() else {
        println!("usage: elf_walk sections_fold|sections_collect|ranges_fold|ranges_collect ROUNDS <FILE");
        return Ok(());
    };
    let mut file = Vec::new();
    io::stdin().lock().read_to_end(&mut file)?;
    match walked(&way, rounds, &file) {
        Ok(sum) => println!("{sum}"),
        Err(ElfFault { damage, place }) => println!("byte {place}: {damage:?}"),
    }
    Ok(())
}
