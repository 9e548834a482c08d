// The program, over any input and any two outputs.

use crate::chunks::Chunks;
use fallible_programs::fallible_elf::fault::ElfFault;
use fallible_programs::fallible_elf::finding::find;
use fallible_programs::fallible_elf::report::run;
use program_io::ending::ended;
use program_io::fault::RunFault;
use program_io::reading::ReadBytes;
use program_io::writing::WriteText;

// `run` over `input`. What `output` holds at its end is handed on.
fn run_whole<R: ReadBytes, W: WriteText>(
    input: &mut R,
    output: &mut Chunks<W>,
) -> Result<(), RunFault<ElfFault>> {
    match run(input, output) {
        Ok(()) => match output.hand_on() {
            Ok(()) => Ok(()),
            Err(error) => Err(RunFault::Write(error.into())),
        },
        Err(RunFault::Input(fault)) => match output.hand_on() {
            Ok(()) => Err(RunFault::Input(fault)),
            Err(error) => Err(RunFault::Write(error.into())),
        },
        Err(RunFault::Read(failed)) => Err(RunFault::Read(failed)),
        Err(RunFault::Memory) => Err(RunFault::Memory),
        Err(RunFault::Write(failed)) => Err(RunFault::Write(failed)),
    }
}

// Prints the report of the file that `input` yields, and tells `errors` of a fault, with the name of the input where that has one. The status that the program ends with; an `Err` where there was a line to tell and it could not be written.
pub(crate) fn program<R: ReadBytes, W: WriteText, E: WriteText>(
    input: &mut R,
    output: &mut Chunks<W>,
    name: Option<&str>,
    errors: &mut E,
) -> Result<u8, u8> {
    ended(run_whole(input, output), name, errors)
}

// Prints the line of the first range that holds an address, of the file that `input` yields, and tells `errors` as `program` does.
pub(crate) fn program_finding<R: ReadBytes, W: WriteText, E: WriteText>(
    address: u64,
    input: &mut R,
    output: &mut W,
    name: Option<&str>,
    errors: &mut E,
) -> Result<u8, u8> {
    ended(find(address, input, output), name, errors)
}
