// The program, over any input and any two outputs.

use crate::fault::GroupsFault;
use crate::groups::{MakeReport, bad_row_of, fault_before};
use program_io::ending::ended;
use program_io::fault::{RunFault, fault_of_read};
use program_io::reading::ReadLine;
use program_io::writing::WriteText;
use std::str::from_utf8;

// The first fault of bytes that are UTF-8 up to a place, and no further. It allocates nothing.
fn fault_of_front(bytes: &[u8], place: usize) -> GroupsFault {
    match from_utf8(&bytes[..place]) {
        Ok(front) => fault_before(front, place),
        // Not reached: the front is UTF-8.
        Err(_) => GroupsFault::NotText(place),
    }
}

// The report of the rows that bytes are, or their fault.
fn report_of_bytes<M: MakeReport>(
    maker: &M,
    bytes: &[u8],
) -> Result<Vec<u8>, RunFault<GroupsFault>> {
    match from_utf8(bytes) {
        Ok(text) => maker.report_of(text),
        Err(e) => Err(RunFault::Input(fault_of_front(bytes, e.valid_up_to()))),
    }
}

// Why bytes are no rows, if they are none. It allocates nothing.
fn fault_of_bytes(bytes: &[u8]) -> Option<GroupsFault> {
    match from_utf8(bytes) {
        Ok(text) => bad_row_of(text).map(GroupsFault::Row),
        Err(e) => Some(fault_of_front(bytes, e.valid_up_to())),
    }
}

// The bytes of `input`, which is read up to its end only if its first line is a row.
fn read_rows<R: ReadLine>(input: &mut R) -> Result<Vec<u8>, RunFault<GroupsFault>> {
    let line = match input.read_first_line() {
        Ok(line) => line,
        Err(e) => return Err(fault_of_read(e)),
    };
    match fault_of_bytes(line.as_slice()) {
        Some(fault) => Err(RunFault::Input(fault)),
        None => match input.read_rest(line.as_slice()) {
            Ok(bytes) => Ok(bytes),
            Err(e) => Err(fault_of_read(e)),
        },
    }
}

// Prints the report of `input`. It is made in memory, so it is written whole, and nothing if there is a fault or its allocation fails.
fn run<M: MakeReport, R: ReadLine, W: WriteText>(
    maker: &M,
    input: &mut R,
    output: &mut W,
) -> Result<(), RunFault<GroupsFault>> {
    let bytes = read_rows(input)?;
    let report = report_of_bytes(maker, bytes.as_slice())?;
    match output.write_bytes(report.as_slice()) {
        Ok(()) => Ok(()),
        Err(error) => Err(RunFault::Write(error.into())),
    }
}

// Runs over `input`, and tells `errors` of a fault, with the name of the input where that has one. The status that the program ends with; an `Err` where there was a line to tell and it could not be written.
pub(crate) fn program<M: MakeReport, R: ReadLine, W: WriteText, E: WriteText>(
    maker: &M,
    input: &mut R,
    output: &mut W,
    name: Option<&str>,
    errors: &mut E,
) -> Result<u8, u8> {
    ended(run(maker, input, output), name, errors)
}
