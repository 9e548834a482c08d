//! Prints each name of the members of a JSON text from standard input, once a member. A text that is none is told with its line and column.
use fallible_iterator::FallibleIterator;
use fallible_json::{Fault, JsonFault, PlacedBytes, Token, Tokens, json_of};
use std::io::{Read, stdin};

/// The names, as they stand in the text between their quotes.
fn names(text: &[u8]) -> Result<Vec<&[u8]>, Fault<JsonFault>> {
    json_of(text)?;
    let (mut tokens, mut found, mut before) =
        (Tokens::new(PlacedBytes::new(text)), Vec::new(), None);
    while let Ok(Some((first, last, token))) = tokens.next() {
        match (token, before) {
            // In a text that is checked a name is what stands before a colon.
            (Token::NameSeparator, Some((first, last))) => found.push(&text[first + 1..last]),
            _ => before = Some((first, last)),
        }
    }
    Ok(found)
}

fn main() -> std::io::Result<()> {
    assert_eq!(
        names(br#"{"a": [{"b": "c"}], "d": {}}"#),
        Ok(vec![&b"a"[..], b"b", b"d"])
    );
    assert!(matches!(
        names(br#"{"a": 1,}"#),
        Err(Fault::Source(JsonFault::Unexpected(1, 9, b'}', _)))
    ));
    let mut text = Vec::new();
    stdin().read_to_end(&mut text)?;
    match names(&text) {
        Ok(found) => found
            .iter()
            .for_each(|name| println!("{}", String::from_utf8_lossy(name))),
        Err(fault) => eprintln!("{fault}"),
    }
    Ok(())
}
