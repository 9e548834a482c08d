//! Reads rows from standard input, one number a row, and prints how many of the first 1,000,000 are
//! above 100.
//!
//! Where that cannot be told, it says why on standard error, and ends with status 1 at a row that is
//! not a number, 2 where a read fails, 3 where memory runs out, and 4 where the count cannot be
//! printed.
#![forbid(unsafe_code)]
// The bodies stay as they are proved, where a proof may count by a loop's variable.
#![allow(
    unused_variables,
    clippy::complexity,
    clippy::manual_unwrap_or_default,
    clippy::perf,
    clippy::style
)]

mod program;

use fallible_programs::fallible_rows::{BadRow, Buffered};
use program::program;
use program_io::ending::ended;
use program_io::fault::RunFault;
use program_io::memory::TryBuffer;
use program_io::runtime::HostRuntime;
use std::io::BufReader;
use std::process::ExitCode;

fn main() -> ExitCode {
    started(HostRuntime)
}

fn started(rt: HostRuntime) -> ExitCode {
    let mut output = rt.stdout();
    let mut errors = rt.stderr();
    let ended = match BufReader::try_new(rt.stdin()) {
        Ok(reader) => program(&mut Buffered::new(reader), &mut output, None, &mut errors),
        Err(_) => ended::<BadRow, _>(Err(RunFault::Memory), None, &mut errors),
    };
    match ended {
        Ok(status) | Err(status) => ExitCode::from(status),
    }
}
