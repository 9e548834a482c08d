// What is wrong with rows, and how that is told.

use program_io::fault::{InputFault, write_placed};
use program_io::writing::WriteText;
use std::io;

// What is wrong with a line.
#[derive(Clone, Copy, Debug)]
pub(crate) enum Wrong {
    // It is no key and amount.
    NoRow,
    // Its key is below that of the row before.
    Unsorted,
}

impl Wrong {
    // What is told of it.
    fn text(self) -> &'static str {
        match self {
            Wrong::NoRow => "not a key and an amount",
            Wrong::Unsorted => "the key is below the one before",
        }
    }
}

// A line that is wrong.
#[derive(Clone, Copy, Debug)]
pub(crate) struct BadRow {
    // its place, from 1
    pub place: u64,
    pub wrong: Wrong,
}

// Why the input is no rows.
#[derive(Clone, Copy, Debug)]
pub(crate) enum GroupsFault {
    // it is no UTF-8 at the byte of this place, from 0
    NotText(usize),
    // a line is no row, or out of order
    Row(BadRow),
}

impl InputFault for GroupsFault {
    // 1
    fn status(&self) -> u8 {
        1
    }

    fn write_line<W: WriteText>(&self, errors: &mut W) -> io::Result<()> {
        match self {
            GroupsFault::NotText(place) => write_placed("byte", *place as u64, "not UTF-8", errors),
            GroupsFault::Row(bad) => write_placed("row", bad.place, bad.wrong.text(), errors),
        }
    }
}
