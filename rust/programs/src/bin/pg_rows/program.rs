// The program, over any input and any two outputs.

use fallible_pg::{Format, HoldText, ReadMessage, Rows, print_rows};
use program_io::ending::ended;
use program_io::writing::WriteText;

// Runs over `rows`, and tells `errors` of the notices and of a fault, with the name of the input where that has one. The status that the program ends with; an `Err` where there was a line to tell and it could not be written.
pub(crate) fn program<R: ReadMessage, T: HoldText, W: WriteText, E: WriteText>(
    rows: &mut Rows<R>,
    format: Format<'_>,
    text: &mut T,
    output: &mut W,
    name: Option<&str>,
    errors: &mut E,
) -> Result<u8, u8>
// The notices were told by then.
{
    ended(print_rows(rows, format, text, output, errors), name, errors)
}
