//! How a program ends.

#[cfg(feature = "std")]
use crate::fault::InputFault;
use crate::fault::RunFault;
#[cfg(feature = "std")]
use crate::fault::fault_line;
#[cfg(feature = "std")]
use crate::writing::WriteText;

/// Ends a program: the status of its run's outcome, 0 or that of its fault, of which it tells `errors`, with the name of its input where that has one. The status is an `Err` where there was a line to tell and it could not be written.
#[cfg(feature = "std")]
pub fn ended<F: InputFault, E: WriteText>(
    outcome: Result<(), RunFault<F>>,
    name: Option<&str>,
    errors: &mut E,
) -> Result<u8, u8> {
    match outcome {
        Ok(()) => Ok(0),
        Err(fault) => fault_line(&fault, name, errors),
    }
}
