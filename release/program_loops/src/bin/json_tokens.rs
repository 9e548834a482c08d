//! A JSON text without the blanks between its tokens, as `json_tokens` prints it where the input is one text, by one loop over the tokens, once it was read whole. It makes the same checks, and tells the line and the column of a fault, without what could come there.
use std::io::{self, Read, Write};
use std::process::ExitCode;

/// What may come next.
#[derive(Clone, Copy, PartialEq)]
enum Expects {
    Value,
    ValueOrEnd,
    Name,
    NameOrEnd,
    Colon,
    AfterValue,
}

/// Where the string ends whose first byte stands before a place; otherwise where it breaks off.
fn string_end(text: &[u8], mut at: usize) -> Result<usize, usize> {
    loop {
        match text.get(at) {
            Some(b'"') => return Ok(at + 1),
            Some(b'\\') => match text.get(at + 1) {
                Some(b'"' | b'\\' | b'/' | b'b' | b'f' | b'n' | b'r' | b't') => at += 2,
                Some(b'u') => {
                    let digits = text[at + 2..].iter().take(4).take_while(|byte| byte.is_ascii_hexdigit()).count();
                    if digits < 4 {
                        return Err(at + 2 + digits);
                    }
                    at += 6;
                }
                _ => return Err(at + 1),
            },
            Some(0..=31) | None => return Err(at),
            Some(_) => at += 1,
        }
    }
}

/// Where the digits end that stand at a place; an error where there is none.
fn digits_end(text: &[u8], mut at: usize) -> Result<usize, usize> {
    let first = at;
    while text.get(at).is_some_and(u8::is_ascii_digit) {
        at += 1;
    }
    if at > first { Ok(at) } else { Err(at) }
}

fn number_end(text: &[u8], mut at: usize) -> Result<usize, usize> {
    if text[at] == b'-' {
        at += 1;
    }
    at = if text.get(at) == Some(&b'0') { at + 1 } else { digits_end(text, at)? };
    if text.get(at) == Some(&b'.') {
        at = digits_end(text, at + 1)?;
    }
    if let Some(b'e' | b'E') = text.get(at) {
        at += 1;
        if let Some(b'+' | b'-') = text.get(at) {
            at += 1;
        }
        at = digits_end(text, at)?;
    }
    Ok(at)
}

fn literal_end(text: &[u8], at: usize, literal: &[u8]) -> Result<usize, usize> {
    let same = text[at..].iter().zip(literal).take_while(|(a, b)| a == b).count();
    if same == literal.len() { Ok(at + same) } else { Err(at + same) }
}

/// The bytes of the tokens; or the place of the first fault.
fn minified(text: &[u8]) -> Result<Vec<u8>, usize> {
    let (mut json, mut open, mut expects, mut at) = (Vec::new(), Vec::new(), Expects::Value, 0);
    loop {
        while let Some(b' ' | b'\t' | b'\n' | b'\r') = text.get(at) {
            at += 1;
        }
        let Some(byte) = text.get(at) else {
            return if expects == Expects::AfterValue && open.is_empty() { Ok(json) } else { Err(at) };
        };
        let end = match byte {
            b'[' | b']' | b'{' | b'}' | b':' | b',' => at + 1,
            b'"' => string_end(text, at + 1)?,
            b'-' | b'0'..=b'9' => number_end(text, at)?,
            b't' => literal_end(text, at, b"true")?,
            b'f' => literal_end(text, at, b"false")?,
            b'n' => literal_end(text, at, b"null")?,
            _ => return Err(at),
        };
        let value = matches!(expects, Expects::Value | Expects::ValueOrEnd);
        expects = match byte {
            b']' if expects == Expects::ValueOrEnd || expects == Expects::AfterValue && open.last() == Some(&b'[') => {
                open.pop();
                Expects::AfterValue
            }
            b'}' if expects == Expects::NameOrEnd || expects == Expects::AfterValue && open.last() == Some(&b'{') => {
                open.pop();
                Expects::AfterValue
            }
            b',' if expects == Expects::AfterValue => match open.last() {
                Some(b'[') => Expects::Value,
                Some(_) => Expects::Name,
                None => return Err(at),
            },
            b':' if expects == Expects::Colon => Expects::Value,
            b'"' if matches!(expects, Expects::Name | Expects::NameOrEnd) => Expects::Colon,
            b'[' if value => {
                open.push(b'[');
                Expects::ValueOrEnd
            }
            b'{' if value => {
                open.push(b'{');
                Expects::NameOrEnd
            }
            b']' | b'}' | b',' | b':' | b'[' | b'{' => return Err(at),
            _ if value => Expects::AfterValue,
            _ => return Err(at),
        };
        json.extend_from_slice(&text[at..end]);
        at = end;
    }
}

/// The line and the column of the byte at a place.
fn place_of(text: &[u8], at: usize) -> (usize, usize) {
    text[..at].iter().fold((1, 1), |(line, column), byte| match byte {
        b'\n' => (line + 1, 1),
        128..=191 => (line, column),
        _ => (line, column + 1),
    })
}

fn run(mut input: impl Read, output: &mut impl Write) -> Result<(), (u8, String)> {
    let mut text = Vec::new();
    input.read_to_end(&mut text).or(Err((2, "read failed".into())))?;
    let valid = std::str::from_utf8(&text).map_or_else(|e| e.valid_up_to(), str::len);
    let told = |at| {
        let (line, column) = place_of(&text, at);
        (1, format!("line {line}, column {column}"))
    };
    let mut json = minified(&text[..valid]).map_err(told)?;
    if valid < text.len() {
        return Err(told(valid));
    }
    json.push(b'\n');
    output.write_all(&json).or(Err((4, "write failed".into())))
}

fn main() -> ExitCode {
    match run(io::stdin(), &mut io::stdout().lock()) {
        Ok(()) => ExitCode::SUCCESS,
        Err((status, line)) => {
            eprintln!("{line}");
            ExitCode::from(status)
        }
    }
}
