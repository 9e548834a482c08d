//! Why a run fails, and how that is told.

use crate::memory::AllocError;
#[cfg(feature = "std")]
use crate::writing::WriteText;
#[cfg(feature = "std")]
use crate::writing::write_shown;
#[cfg(feature = "std")]
use std::io;
#[cfg(feature = "std")]
use std::io::ErrorKind;

/// What may be wrong with a program's input, and how that is told.
#[cfg(feature = "std")]
pub trait InputFault {
    /// The status that the program ends with.
    fn status(&self) -> u8;

    /// Writes the line that tells of it, with its newline.
    fn write_line<W: WriteText>(&self, errors: &mut W) -> io::Result<()>;
}

/// Writes the line that tells what is wrong at a place of the input, as `row 3: not a number`, with its newline.
#[cfg(feature = "std")]
pub fn write_placed<W: WriteText>(
    unit: &str,
    place: u64,
    text: &str,
    errors: &mut W,
) -> io::Result<()> {
    errors.write_text(format_args!("{unit} {place}: {text}\n"))
}

/// Why a run made no report.
#[derive(Debug)]
pub enum RunFault<F> {
    /// The input has a fault.
    Input(F),
    /// A read failed.
    Read(crate::failed::ReadFailed),
    /// An allocation failed, or a read for want of memory.
    Memory,
    /// The report could not be written.
    Write(crate::failed::WriteFailed),
}

impl<F> From<AllocError> for RunFault<F> {
    /// `RunFault::Memory`
    fn from(_: AllocError) -> RunFault<F> {
        RunFault::Memory
    }
}

/// What a failed read comes to: `Memory` if it failed for want of memory, and otherwise `Read`.
#[cfg(feature = "std")]
pub fn fault_of_read<F>(error: io::Error) -> RunFault<F> {
    match error.kind() {
        ErrorKind::OutOfMemory => RunFault::Memory,
        _ => RunFault::Read(error.into()),
    }
}

#[cfg(feature = "std")]
impl<F: InputFault> RunFault<F> {
    // The status that a program ends with.
    fn exit_status(&self) -> u8 {
        match self {
            RunFault::Input(fault) => fault.status(),
            RunFault::Read(_) => 2,
            RunFault::Memory => 3,
            RunFault::Write(_) => 4,
        }
    }

    // Writes what stands in front of the line that tells of it: the name of the input, where it has one, at a fault of it and at a failed read.
    fn write_front<W: WriteText>(&self, name: Option<&str>, errors: &mut W) -> io::Result<()> {
        match self {
            RunFault::Input(_) | RunFault::Read(_) => write_name(name, errors),
            RunFault::Memory | RunFault::Write(_) => Ok(()),
        }
    }

    // Writes the line that tells of it, with no name.
    fn write_rest<W: WriteText>(&self, errors: &mut W) -> io::Result<()> {
        match self {
            RunFault::Input(fault) => fault.write_line(errors),
            RunFault::Read(_) => errors.write_text("read failed\n"),
            RunFault::Memory => errors.write_text("no memory\n"),
            RunFault::Write(_) => errors.write_text("write failed\n"),
        }
    }

    // Writes the line that tells of it.
    fn write_whole_line<W: WriteText>(&self, name: Option<&str>, errors: &mut W) -> io::Result<()> {
        self.write_front(name, errors)?;
        self.write_rest(errors)
    }
}

// Writes the name of an input that has one, and a colon.
#[cfg(feature = "std")]
fn write_name<W: WriteText>(name: Option<&str>, errors: &mut W) -> io::Result<()> {
    let name = match name {
        Some(name) => name,
        _ => {
            return Ok(());
        }
    };
    write_shown(name, errors)?;
    errors.write_bytes(b": ")
}

/// Writes the one line that tells of `fault` to `errors`, and returns the status that a program ends with after it: that of the input's fault, 2 for `Read`, 3 for `Memory`, 4 for `Write`. The name of the input, where it has one, stands in front at `Input` and `Read`.
///
/// `Ok` of the status where that line and nothing else was written, and `Err` of the same status where it could not be, and part of it may have been. It allocates nothing.
#[cfg(feature = "std")]
pub fn fault_line<F: InputFault, W: WriteText>(
    fault: &RunFault<F>,
    name: Option<&str>,
    errors: &mut W,
) -> Result<u8, u8> {
    let status = fault.exit_status();
    match fault.write_whole_line(name, errors) {
        Ok(()) => Ok(status),
        Err(_) => Err(status),
    }
}
