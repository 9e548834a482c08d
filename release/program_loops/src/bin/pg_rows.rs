//! What `pg_rows` prints of what a PostgreSQL server sent in a session, by one loop over the messages. It makes the same checks, and writes each row at once.
use std::io::{self, BufRead, BufReader, Read, Write};
use std::process::ExitCode;

/// Why no more rows were printed: the status, and what is told.
type Fault = (u8, String);

fn number(bytes: &[u8]) -> usize {
    u32::from_be_bytes([bytes[0], bytes[1], bytes[2], bytes[3]]) as usize
}

/// Reads so many bytes more, with no more room than has come.
fn read(input: &mut impl BufRead, bytes: &mut Vec<u8>, count: usize, place: u64) -> Result<(), Fault> {
    let before = bytes.len();
    match input.by_ref().take(count as u64).read_to_end(bytes) {
        Ok(_) if bytes.len() == before + count => Ok(()),
        Ok(_) => Err((6, format!("byte {place}: the connection ended within a message"))),
        Err(_) => Err((2, "read failed".into())),
    }
}

/// Puts the text of a row in place of what the buffer has, if its cells fill it.
fn row_text(body: &[u8], text: &mut Vec<u8>) -> Option<()> {
    text.clear();
    let count = u16::from_be_bytes([*body.first()?, *body.get(1)?]);
    let mut rest = &body[2..];
    for cell in 0..count {
        if cell > 0 {
            text.push(b'|');
        }
        let size = number(rest.get(..4)?);
        rest = &rest[4..];
        if size != u32::MAX as usize {
            text.extend_from_slice(rest.get(..size)?);
            rest = &rest[size..];
        }
    }
    if count > 0 {
        text.push(b'\n');
    }
    rest.is_empty().then_some(())
}

fn field(letter: u8, fields: &[u8]) -> String {
    let text = fields.split(|byte| *byte == 0).find(|text| text.first() == Some(&letter));
    String::from_utf8_lossy(text.map_or(&[], |text| &text[1..])).into_owned()
}

fn unread(place: u64, tag: u8) -> Fault {
    match tag {
        b'G' | b'H' | b'W' | b'c' | b'd' => (7, format!("byte {place}: COPY isn't read")),
        b'V' => (7, format!("byte {place}: a function's call isn't read")),
        _ => (5, format!("byte {place}: a message has the unexpected tag {tag}")),
    }
}

fn run(mut input: impl BufRead, output: &mut impl Write) -> Result<(), Fault> {
    let (mut bytes, mut text, mut place, mut ready) = (Vec::new(), Vec::new(), 0, false);
    loop {
        bytes.clear();
        if ready && input.fill_buf().or(Err((2, "read failed".into())))?.is_empty() {
            return Ok(());
        }
        read(&mut input, &mut bytes, 5, place)?;
        let length = number(&bytes[1..]);
        if !(4..1 << 30).contains(&length) {
            return Err((5, format!("byte {place}: a message states the length {length}")));
        }
        read(&mut input, &mut bytes, length - 4, place)?;
        match bytes[0] {
            b'D' => {
                row_text(&bytes[5..], &mut text).ok_or((5, format!("byte {place}: the cells of a row don't fill it")))?;
                output.write_all(&text).or(Err((4, "write failed".into())))?;
            }
            b'E' => return Err((1, format!("{}:  {}", field(b'S', &bytes[5..]), field(b'M', &bytes[5..])))),
            b'T' | b'C' | b'I' | b'N' | b'S' | b'A' | b'Z' | b'R' | b'K' | b'v' => {}
            b'1' | b'2' | b'3' | b'n' | b's' | b't' => {}
            tag => return Err(unread(place, tag)),
        }
        ready = bytes[0] == b'Z' || ready && matches!(bytes[0], b'N' | b'S' | b'A');
        place += bytes.len() as u64;
    }
}

fn main() -> ExitCode {
    let input = BufReader::new(io::stdin());
    match run(input, &mut io::stdout().lock()) {
        Ok(()) => ExitCode::SUCCESS,
        Err((status, line)) => {
            eprintln!("{line}");
            ExitCode::from(status)
        }
    }
}
