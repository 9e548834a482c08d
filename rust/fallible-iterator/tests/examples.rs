//! The examples, by their input and output.
#[path = "../examples/count_rows.rs"]
mod count_rows;
#[path = "../examples/elf_tables.rs"]
mod elf_tables;

use count_rows::{Fault, count_above};
use elf_tables::{Damage, report, sections};
use fallible_iterator::FallibleIterator;
use std::io::{BufReader, Error, ErrorKind, Read};

#[test]
fn rows_above_100_are_counted() {
    assert_eq!(count_above(&b"100\n200\n400\n"[..], 100), Ok(2));
    assert_eq!(count_above(&b""[..], 100), Ok(0));
}

#[test]
fn a_row_that_is_no_number_is_named() {
    assert_eq!(
        count_above(&b"100\n200\nfern\n400"[..], 100),
        Err(Fault::Row(3))
    );
}

struct Down;

impl Read for Down {
    fn read(&mut self, _: &mut [u8]) -> Result<usize, Error> {
        Err(Error::from(ErrorKind::TimedOut))
    }
}

#[test]
fn a_failed_read_is_told() {
    let input = BufReader::new((&b"200\n"[..]).chain(Down));
    assert_eq!(count_above(input, 100), Err(Fault::Read));
}

/// A file of two sections, `.text` of 5 bytes and `.names`, which has the names.
fn object() -> Vec<u8> {
    let mut file = b"\x7fELF\x02\x01".to_vec();
    let names = b"\0.text\0.names\0";
    file.resize(64, 0);
    file[40] = 64;
    file[60] = 2;
    file[62] = 1;
    for (name, kind, place, size) in [(1, 1, 0, 5), (7, 3, 192, names.len() as u8)] {
        let mut header = [0; 64];
        header[0] = name;
        header[4] = kind;
        header[24] = place;
        header[32] = size;
        file.extend_from_slice(&header);
    }
    file.extend_from_slice(names);
    file
}

#[test]
fn sections_are_listed() {
    assert_eq!(
        report(&object()),
        Ok(vec![".text 1 5".into(), ".names 3 14".into()])
    );
}

#[test]
fn a_damaged_name_is_told_and_the_walk_goes_on() {
    let mut file = object();
    file[65] = 9;
    assert_eq!(report(&file), Err(Damage(64, "the name is out of range")));
    let mut walk = sections(&file).unwrap();
    assert_eq!(walk.next(), Err(Damage(64, "the name is out of range")));
    assert_eq!(walk.next().unwrap().unwrap().name, ".names");
    assert_eq!(walk.next(), Ok(None));
}

#[test]
fn what_is_no_object_is_refused() {
    assert_eq!(report(b"#!/bin/sh"), Err(Damage(0, "no such ELF file")));
    assert_eq!(
        report(&object()[..100]),
        Err(Damage(152, "the file ends here"))
    );
}
