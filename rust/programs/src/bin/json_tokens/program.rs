// The program, over any input and any two outputs.

use fallible_json::Prints;
use fallible_json::programs::{MakeTexts, run};
use program_io::ending::ended;
use program_io::reading::ReadBytes;
use program_io::writing::WriteText;

// Runs over `input`, and tells `errors` of a fault, with the name of the input where that has one. The status that the program ends with; an `Err` where there was a line to tell and it could not be written.
pub(crate) fn program<M: MakeTexts, R: ReadBytes, W: WriteText, E: WriteText>(
    maker: &M,
    prints: Prints,
    input: &mut R,
    output: &mut W,
    name: Option<&str>,
    errors: &mut E,
) -> Result<u8, u8> {
    ended(run(maker, prints, input, output), name, errors)
}
