//! Fields of CSV, as psql writes them.

#[cfg(feature = "std")]
use crate::putting::PutBytes;
#[cfg(feature = "std")]
use std::io;

// Whether a field with this byte is quoted: a quote, a comma, or an end of a line.
fn is_special(byte: u8) -> bool {
    byte == b'"' || byte == b',' || byte == b'\n' || byte == b'\r'
}

// Whether a field has such a byte.
fn has_special(field: &[u8]) -> bool {
    for byte in field {
        if is_special(*byte) {
            return true;
        }
    }
    false
}

// Whether a field is quoted: it has such a byte, or is the mark that ends the data of COPY.
fn is_quoted(field: &[u8]) -> bool {
    has_special(field) || field == b"\\.".as_slice()
}

// Writes a byte within quotes: a quote twice.
#[cfg(feature = "std")]
fn write_within<P: PutBytes>(byte: u8, writer: &mut P) -> io::Result<()> {
    if byte == b'"' {
        writer.put_bytes(b"\"\"")
    } else {
        writer.put_bytes(&[byte])
    }
}

// Writes the bytes of a field within quotes.
#[cfg(feature = "std")]
fn write_doubled<P: PutBytes>(field: &[u8], writer: &mut P) -> io::Result<()> {
    for byte in field {
        write_within(*byte, writer)?;
    }
    Ok(())
}

// Writes a field that is quoted.
#[cfg(feature = "std")]
fn write_quoted<P: PutBytes>(field: &[u8], writer: &mut P) -> io::Result<()> {
    writer.put_bytes(b"\"")?;
    write_doubled(field, writer)?;
    writer.put_bytes(b"\"")
}

// Writes a field.
#[cfg(feature = "std")]
pub(crate) fn write_field<P: PutBytes>(field: &[u8], writer: &mut P) -> io::Result<()> {
    if is_quoted(field) {
        write_quoted(field, writer)
    } else {
        writer.put_bytes(field)
    }
}
