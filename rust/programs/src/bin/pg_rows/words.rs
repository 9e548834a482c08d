// What the program's words ask for.

use fallible_pg::Format;
use program_io::arguments::{Asked, asked_from};
use program_io::runtime::Args;

// What the program's words ask for.
#[derive(Debug)]
pub(crate) struct Wanted {
    // what a NULL is printed as, where a word says it
    pub(crate) null: Option<String>,
    // whether rows are printed as CSV
    pub(crate) csv: bool,
    // what is read
    pub(crate) asked: Asked,
}

// What a NULL is printed as: nothing, where no word says it.
fn null_text(null: &Option<String>) -> &[u8] {
    match null {
        Some(text) => text.as_bytes(),
        None => &[],
    }
}

// In which form rows are printed.
pub(crate) fn format_of(null: &Option<String>, csv: bool) -> Format<'_> {
    Format {
        null: null_text(null),
        csv,
    }
}

// What words ask for, after a word that asks for a text, where one stands before them, and after those that said what a NULL is printed as, and whether as CSV.
fn wanted_from(asking: Option<String>, null: Option<String>, csv: bool, mut words: Args) -> Wanted {
    let word = match words.next() {
        Some(word) => word,
        _ => {
            return wanted_at_end(asking, null, csv);
        }
    };
    if asking.is_some() {
        return wanted_from(None, Some(word), csv, words);
    }
    if word.as_str() == "--csv" {
        return wanted_from(None, null, true, words);
    }
    if word.as_str() == "--null" {
        return wanted_from(Some(word), null, csv, words);
    }
    Wanted {
        null,
        csv,
        asked: asked_from(word, words),
    }
}

// What is asked for where no word is left: a word that asks for a text has none.
fn wanted_at_end(asking: Option<String>, null: Option<String>, csv: bool) -> Wanted {
    let asked = match asking {
        Some(word) => Asked::Unexpected(word),
        None => Asked::Standard,
    };
    Wanted { null, csv, asked }
}

// What the program's words ask for, of which the first is its name: `--csv` for CSV, `--null` and a word for what a NULL is printed as, and the words after these for what is read.
pub(crate) fn wanted_by(mut words: Args) -> Wanted {
    let _ = words.next();
    wanted_from(None, None, false, words)
}
