// What the program's words ask for.

use fallible_json::Prints;
use program_io::arguments::{Asked, asked_from};
use program_io::runtime::Args;

// What the program's words ask for.
#[derive(Debug)]
pub(crate) struct Wanted {
    // what of a text is printed before it ends
    pub(crate) prints: Prints,
    // what is read
    pub(crate) asked: Asked,
}

// What words ask for that may name an input.
fn wanted_of_input(prints: Prints, mut words: Args) -> Wanted {
    let asked = match words.next() {
        Some(word) => asked_from(word, words),
        None => Asked::Standard,
    };
    Wanted { prints, asked }
}

// What the program's words ask for, of which the first is its name: `--tokens` for each token soon after it came, and the words after it for what is read.
pub(crate) fn wanted_by(mut words: Args) -> Wanted {
    let _ = words.next();
    let word = match words.next() {
        Some(word) => word,
        _ => {
            return Wanted {
                prints: Prints::Texts,
                asked: Asked::Standard,
            };
        }
    };
    if word.as_str() == "--tokens" {
        return wanted_of_input(Prints::Tokens, words);
    }
    Wanted {
        prints: Prints::Texts,
        asked: asked_from(word, words),
    }
}
