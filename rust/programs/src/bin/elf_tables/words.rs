// What the program's words ask for.

use program_io::arguments::{Asked, asked_from};
use program_io::runtime::Args;

// What the program's words ask for.
#[derive(Debug)]
pub(crate) struct Wanted {
    // the address whose range is looked for, where one is
    pub(crate) address: Option<u64>,
    // what is read
    pub(crate) asked: Asked,
}

// The value of a digit to the base 16, in either case.
fn hex_digit(byte: u8) -> Option<u64> {
    match byte {
        48..=57 => Some(u64::from(byte - 48)),
        65..=70 => Some(u64::from(byte - 55)),
        97..=102 => Some(u64::from(byte - 87)),
        _ => None,
    }
}

// A text without `0x` or `0X` in front.
fn without_0x(text: &[u8]) -> &[u8] {
    if text.starts_with(b"0x") || text.starts_with(b"0X") {
        return &text[2..];
    }
    text
}

// The number below 2 ^ 64 that digits write to the base 16, where they are all digits.
fn number_of(digits: &[u8]) -> Option<u64> {
    let mut number = 0;
    for byte in digits {
        let digit = hex_digit(*byte)?;
        if number >= 1 << 60 {
            return None;
        }
        number = number * 16 + digit;
    }
    Some(number)
}

// The address that a word writes.
fn address_of(word: &str) -> Option<u64> {
    let digits = without_0x(word.as_bytes());
    if digits.is_empty() {
        return None;
    }
    number_of(digits)
}

// What words ask for that may name an input.
fn wanted_of_input(address: Option<u64>, mut words: Args) -> Wanted {
    let asked = match words.next() {
        Some(word) => asked_from(word, words),
        None => Asked::Standard,
    };
    Wanted { address, asked }
}

// What is refused: a word that asks for nothing that there is.
fn refused(word: String) -> Wanted {
    Wanted {
        address: None,
        asked: Asked::Unexpected(word),
    }
}

// What the words after `--find` ask for, of which the first is the address.
fn wanted_after_find(find: String, mut words: Args) -> Wanted {
    let word = match words.next() {
        Some(word) => word,
        _ => {
            return refused(find);
        }
    };
    match address_of(word.as_str()) {
        Some(address) => wanted_of_input(Some(address), words),
        None => refused(word),
    }
}

// What the program's words ask for, of which the first is its name: `--find` and a word for the address whose range is looked for, and the words after these for what is read.
pub(crate) fn wanted_by(mut words: Args) -> Wanted {
    let _ = words.next();
    let word = match words.next() {
        Some(word) => word,
        _ => {
            return Wanted {
                address: None,
                asked: Asked::Standard,
            };
        }
    };
    if word.as_str() == "--find" {
        return wanted_after_find(word, words);
    }
    Wanted {
        address: None,
        asked: asked_from(word, words),
    }
}
