//! Reads an ELF file of 64 bits, whose numbers begin with their least byte, from the file that its word names or from standard input, and prints its sections, and the sets of address ranges of its sections `.debug_aranges` with their ranges; or, after `--find`, the first range that holds an address. It reads no file of 32 bits, and none whose numbers begin with their greatest byte.
//!
//! Where that cannot be told, it says why on standard error, with the place of the byte where it was met, from 0, and ends with status 1 at a damaged file, 2 where a read fails, the file can't be opened, or a word is none that it takes, 3 where memory runs out, 4 where the tables cannot be printed, 5 where it is no such file, 6 where the address ranges are of a kind that isn't read, 7 where no range holds the address, and 8 where one is looked for and the file has none. At a fault of the address ranges the sections are printed, where no address is looked for.
#![forbid(unsafe_code)]
// The bodies stay as they are proved, where a proof may count by a loop's variable.
#![allow(
    unused_variables,
    clippy::complexity,
    clippy::manual_unwrap_or_default,
    clippy::perf,
    clippy::style
)]

mod chunks;
mod program;
mod words;

use chunks::Chunks;
use program::{program, program_finding};
use program_io::arguments::{Given, input_asked, told, words_of};
use program_io::runtime::HostRuntime;
use std::process::ExitCode;
use words::{Wanted, wanted_by};

const USAGE: &str = "usage: elf_tables [--find ADDRESS] [FILE]
       elf_tables -h | --help
Reads an ELF file of 64 bits, whose numbers begin with their least byte,
and prints its sections and its address ranges; with --find the first range
that holds ADDRESS, which is hexadecimal, with 0x or without.
It reads one FILE at most, and standard input where FILE is - or none is given.
A FILE whose name begins with - is given after --, or as ./-NAME.
The status is 0 where all was printed, 1 at a damaged file, 2 where a read fails
or a word is refused, 3 where memory is, 4 where a write fails, 5 at another
file, 6 at ranges of a kind that isn't read, 7 where no range holds ADDRESS, and
8 where one is looked for and the file has none.";

fn main() -> ExitCode {
    started(HostRuntime)
}

fn started(rt: HostRuntime) -> ExitCode {
    let mut output = rt.stdout();
    let mut errors = rt.stderr();
    let Wanted { address, asked } = match words_of(&rt) {
        Ok(words) => wanted_by(words),
        Err(fault) => return ExitCode::from(told(&fault, &mut errors)),
    };
    let given = input_asked(&rt, asked, rt.stdin(), USAGE, &mut output, &mut errors);
    let Given { mut input, name } = match given {
        Ok(given) => given,
        Err(status) => return ExitCode::from(status),
    };
    let name = name.as_deref();
    let ended = match address {
        Some(address) => program_finding(address, &mut input, &mut output, name, &mut errors),
        None => {
            let mut chunks = Chunks::new(output);
            program(&mut input, &mut chunks, name, &mut errors)
        }
    };
    match ended {
        Ok(status) | Err(status) => ExitCode::from(status),
    }
}
