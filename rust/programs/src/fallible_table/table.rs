//! A binary table: records of two numbers, little endian.

use fallible_iterator::FallibleIterator;

/// Two numbers of a table.
#[derive(Clone, Copy, Debug, PartialEq, Eq)]
pub struct Record {
    /// The first.
    pub low: u32,
    /// The second, which is not below the first in a good record.
    pub high: u32,
}

/// The table ends within a record.
#[derive(Clone, Copy, Debug, PartialEq, Eq)]
pub struct CutShort;

impl Record {
    /// The record of eight bytes: two numbers, the least byte first.
    pub fn from_bytes(bytes: &[u8; 8]) -> Record {
        let [a, b, c, d, e, f, g, h] = *bytes;
        Record {
            low: u32::from_le_bytes([a, b, c, d]),
            high: u32::from_le_bytes([e, f, g, h]),
        }
    }

    /// Whether the first number is not above the second.
    pub fn is_low_to_high(&self) -> bool {
        self.low <= self.high
    }
}

/// The records of bytes, eight bytes each. A draw takes the bytes of one record. If fewer are left, it takes them and fails, and then each call returns `Ok(None)`.
pub struct Records<'a> {
    /// The bytes that are left.
    pub bytes: &'a [u8],
}

impl FallibleIterator for Records<'_> {
    type Item = Record;

    type Error = CutShort;

    fn next(&mut self) -> Result<Option<Record>, CutShort> {
        if let Some((record, rest)) = self.bytes.split_first_chunk::<8>() {
            self.bytes = rest;
            return Ok(Some(Record::from_bytes(record)));
        }
        let is_cut = !self.bytes.is_empty();
        self.bytes = &[];
        if is_cut { Err(CutShort) } else { Ok(None) }
    }

    fn size_hint(&self) -> (usize, Option<usize>) {
        (0, None)
    }
}

/// The records of a table. Creating them draws nothing.
pub fn read<'a>(bytes: &'a [u8]) -> Records<'a> {
    Records { bytes }
}

/// How many records come before the first one that isn't good; `None` if all are good. It draws up to that record. It fails where the table ends within a record and none before it is bad.
pub fn first_bad(bytes: &[u8]) -> Result<Option<usize>, CutShort> {
    read(bytes).position(|record| Ok(record.high < record.low))
}

/// The sum of the second numbers of the good records, modulo 2 ^ 64. It draws up to the table's end. It fails where that is within a record.
pub fn high_of_good(bytes: &[u8]) -> Result<u64, CutShort> {
    read(bytes)
        .filter(|record| Ok(record.is_low_to_high()))
        .fold(0, |sum: u64, record: Record| {
            Ok(sum.wrapping_add(u64::from(record.high)))
        })
}

/// Why a table has no totals.
#[derive(Clone, Copy, Debug, PartialEq, Eq)]
pub enum TableFault {
    /// The record at this place, from 1, isn't good.
    Bad(usize),
    /// The table ends within the record at this place, from 1.
    Cut(usize),
}

/// What a table comes to.
#[derive(Clone, Copy, Debug, PartialEq, Eq)]
pub struct Totals {
    /// How many records there are.
    pub records: u64,
    /// The sum of their first numbers.
    pub low: u64,
    /// The sum of their second numbers.
    pub high: u64,
}

// The totals of no records.
pub(crate) const NO_TOTALS: Totals = Totals {
    records: 0,
    low: 0,
    high: 0,
};

impl Totals {
    // The totals with one record more, modulo 2 ^ 64.
    fn with(self, drawn: Record) -> Totals {
        Totals {
            records: self.records.wrapping_add(1),
            low: self.low.wrapping_add(u64::from(drawn.low)),
            high: self.high.wrapping_add(u64::from(drawn.high)),
        }
    }

    // Both totals added, modulo 2 ^ 64.
    fn plus(self, more: Totals) -> Totals {
        Totals {
            records: self.records.wrapping_add(more.records),
            low: self.low.wrapping_add(more.low),
            high: self.high.wrapping_add(more.high),
        }
    }
}

impl TableFault {
    // The same fault, where so many records come before.
    fn placed_after(self, before: usize) -> TableFault {
        match self {
            TableFault::Bad(place) => TableFault::Bad(before + place),
            TableFault::Cut(place) => TableFault::Cut(before + place),
        }
    }
}

// The record, where it is good.
fn checked(place: usize, drawn: Record) -> Result<Record, TableFault> {
    if drawn.is_low_to_high() {
        Ok(drawn)
    } else {
        Err(TableFault::Bad(place))
    }
}

/// The totals of a table, modulo 2 ^ 64. It draws up to the first fault. It fails with `Bad` at the first record that isn't good, and with `Cut` where the table ends within a record and none before it is bad.
pub fn sum_up(bytes: &[u8]) -> Result<Totals, TableFault> {
    let whole = bytes.len() / 8;
    read(bytes)
        .map_err(|_| TableFault::Cut(whole + 1))
        .enumerate()
        .map(|placed: (usize, Record)| checked(placed.0 + 1, placed.1))
        .fold(NO_TOTALS, |totals: Totals, record: Record| {
            Ok(totals.with(record))
        })
}

/// The totals of a table that begins with whole records of which the totals are known, and goes on with these bytes. It fails as `sum_up` does on the whole table.
pub fn sum_up_more(known: Totals, bytes: &[u8]) -> Result<Totals, TableFault> {
    match sum_up(bytes) {
        Ok(more) => Ok(known.plus(more)),
        Err(fault) => Err(fault.placed_after(known.records as usize)),
    }
}
