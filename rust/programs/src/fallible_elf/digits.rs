// Numbers as digits.

use program_io::writing::WriteText;
use std::io;

// The digit of a number below 16.
#[inline(always)]
fn glyph(number: u64) -> u8 {
    if number < 10 {
        48 + number as u8
    } else {
        87 + number as u8
    }
}

// Puts the digits of a number to a base at the end of `room`. Where they begin.
#[inline(always)]
fn digits_at_end(number: u64, base: u64, room: &mut [u8; 64]) -> usize {
    let mut at = 64;
    let mut rest = number;
    while at > 0 {
        at -= 1;
        room[at] = glyph(rest % base);
        rest /= base;
        if rest == 0 {
            break;
        }
    }
    at
}

// Writes a text, and after it a number to the base 16.
pub(crate) fn write_hex<W: WriteText>(front: &[u8], number: u64, writer: &mut W) -> io::Result<()> {
    writer.write_bytes(front)?;
    let mut room = [0u8; 64];
    let from = digits_at_end(number, 16, &mut room);
    writer.write_bytes(&room[from..])
}

// Writes a text, and after it a number in decimal digits.
pub(crate) fn write_decimal<W: WriteText>(
    front: &[u8],
    number: u64,
    writer: &mut W,
) -> io::Result<()> {
    writer.write_bytes(front)?;
    let mut room = [0u8; 64];
    let from = digits_at_end(number, 10, &mut room);
    writer.write_bytes(&room[from..])
}
