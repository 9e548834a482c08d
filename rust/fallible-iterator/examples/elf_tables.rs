//! Reads an ELF file of 64 bits with the least byte first from standard input, and prints its sections.
//!
//! At a damage it says at which byte, and ends with status 1.
use fallible_iterator::FallibleIterator;
use std::io::{Read, stdin};
use std::process::ExitCode;

/// What is wrong, and at which byte.
#[derive(Debug, PartialEq)]
pub struct Damage(pub usize, pub &'static str);

/// A section: its name, its kind and its size.
#[derive(Debug, PartialEq)]
pub struct Section {
    /// the name
    pub name: String,
    /// the kind, as 1 for a program's bytes
    pub kind: u64,
    /// the size in bytes
    pub size: u64,
}

/// The sections of a file, one header a draw. After a damaged header the next draw goes on.
pub struct Sections<'a> {
    file: &'a [u8],
    place: usize,
    left: u64,
    names: u64,
}

/// The number of so many bytes at that place.
fn number(file: &[u8], place: usize, bytes: usize) -> Result<u64, Damage> {
    match place
        .checked_add(bytes)
        .and_then(|end| file.get(place..end))
    {
        Some(found) => Ok(found
            .iter()
            .rev()
            .fold(0, |n, byte| n << 8 | u64::from(*byte))),
        None => Err(Damage(place, "the file ends here")),
    }
}

/// The text at that place, up to a zero.
fn text(file: &[u8], place: u64) -> Option<String> {
    let from = file.get(usize::try_from(place).ok()?..)?;
    let end = from.iter().position(|byte| *byte == 0)?;
    Some(String::from_utf8_lossy(&from[..end]).into_owned())
}

/// The sections of a file. It reads where the headers are.
pub fn sections(file: &[u8]) -> Result<Sections<'_>, Damage> {
    if !file.starts_with(b"\x7fELF\x02\x01") {
        return Err(Damage(0, "no such ELF file"));
    }
    let place = number(file, 40, 8)? as usize;
    let names = place.saturating_add(64 * number(file, 62, 2)? as usize);
    Ok(Sections {
        file,
        place,
        left: number(file, 60, 2)?,
        names: number(file, names.saturating_add(24), 8)?,
    })
}

impl FallibleIterator for Sections<'_> {
    type Item = Section;
    type Error = Damage;

    fn next(&mut self) -> Result<Option<Section>, Damage> {
        if self.left == 0 {
            return Ok(None);
        }
        let place = self.place;
        self.left -= 1;
        self.place = place.saturating_add(64);
        let size = number(self.file, place.saturating_add(32), 8)?;
        let name = self.names.saturating_add(number(self.file, place, 4)?);
        Ok(Some(Section {
            name: text(self.file, name).ok_or(Damage(place, "the name is out of range"))?,
            kind: number(self.file, place + 4, 4)?,
            size,
        }))
    }
}

/// A line for each section with a name.
pub fn report(file: &[u8]) -> Result<Vec<String>, Damage> {
    sections(file)?
        .filter(|section| Ok(!section.name.is_empty()))
        .map(|section| {
            Ok(format!(
                "{} {} {}",
                section.name, section.kind, section.size
            ))
        })
        .collect()
}

#[allow(dead_code)]
fn main() -> ExitCode {
    let mut file = Vec::new();
    if stdin().lock().read_to_end(&mut file).is_err() {
        eprintln!("read failed");
        return ExitCode::from(2);
    }
    match report(&file) {
        Ok(lines) => {
            lines.iter().for_each(|line| println!("{line}"));
            ExitCode::SUCCESS
        }
        Err(Damage(at, what)) => {
            eprintln!("byte {at}: {what}");
            ExitCode::from(1)
        }
    }
}
