//! Sums up a table as the program `sum_table` does: a loop over slices of a buffer of 64 KiB.
use std::error::Error;
use std::io::{self, ErrorKind, Read};

/// How many bytes a record has.
const RECORD: usize = 8;

/// How many bytes are buffered.
const BUFFER: usize = 65536;

/// What records come to.
#[derive(Default)]
struct Totals {
    records: usize,
    low: u64,
    high: u64,
}

impl Totals {
    /// Adds the records of `bytes`.
    fn add(&mut self, bytes: &[u8]) -> Result<(), Box<dyn Error>> {
        let (mut low_sum, mut high_sum) = (self.low, self.high);
        for record in bytes.chunks_exact(RECORD) {
            let low = u32::from_le_bytes([record[0], record[1], record[2], record[3]]);
            let high = u32::from_le_bytes([record[4], record[5], record[6], record[7]]);
            if low > high {
                return Err("a record's first number is above its second".into());
            }
            low_sum = low_sum.wrapping_add(u64::from(low));
            high_sum = high_sum.wrapping_add(u64::from(high));
        }
        self.records += bytes.len() / RECORD;
        self.low = low_sum;
        self.high = high_sum;
        Ok(())
    }
}

/// The totals of `input`.
fn sum_up(mut input: impl Read) -> Result<Totals, Box<dyn Error>> {
    let mut buffer = vec![0; BUFFER];
    let mut totals = Totals::default();
    let mut held = 0;
    loop {
        match input.read(&mut buffer[held..]) {
            Ok(0) if held == 0 => return Ok(totals),
            Ok(0) => return Err("the last record is cut short".into()),
            Ok(read) => {
                let filled = held + read;
                let whole = filled - filled % RECORD;
                totals.add(&buffer[..whole])?;
                buffer.copy_within(whole..filled, 0);
                held = filled - whole;
            }
            Err(e) if e.kind() == ErrorKind::Interrupted => {}
            Err(e) => return Err(e.into()),
        }
    }
}

fn main() -> Result<(), Box<dyn Error>> {
    let totals = sum_up(io::stdin().lock())?;
    println!(
        "records {}\nlow {}\nhigh {}",
        totals.records, totals.low, totals.high
    );
    Ok(())
}
