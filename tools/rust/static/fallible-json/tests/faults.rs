//! Faults as errors of Rust, and texts of bytes that come a chunk at a time.
use fallible_iterator::{convert, FallibleIterator};
use fallible_json::{
    CheckedTokens, Fault, JsonFault, Kind, PlacedBytes, Prints, RunFault, TextFault, Texts, Tokens,
    Wanted, json_of, minify, run,
};
use program_io::fault::InputFault;
use std::error::Error;
use std::io::{self, ErrorKind, Read};

/// What a program prints of a fault, without the newline.
fn line(fault: &impl InputFault) -> String {
    let mut line = Vec::new();
    fault.write_line(&mut line).unwrap();
    assert_eq!(line.pop(), Some(b'\n'));
    String::from_utf8(line).unwrap()
}

const WANTED: [Wanted; 14] = [
    Wanted::Value,
    Wanted::ValueOrEnd,
    Wanted::Name,
    Wanted::NameOrEnd,
    Wanted::Colon,
    Wanted::CommaOrBracket,
    Wanted::CommaOrBrace,
    Wanted::End,
    Wanted::Character,
    Wanted::Escaped,
    Wanted::HexDigit,
    Wanted::Digit,
    Wanted::SignOrDigit,
    Wanted::Letter(b'u'),
];

#[test]
fn faults_say_what_the_program_prints() {
    for wanted in WANTED {
        for fault in [
            JsonFault::Unexpected(2, 4, b'x', wanted),
            JsonFault::Unexpected(2, 4, b'\'', wanted),
            JsonFault::Unexpected(1, 1, 7, wanted),
            JsonFault::Unexpected(1, 1, 200, wanted),
            JsonFault::Ended(3, 5, wanted),
            JsonFault::NotText(6, 1),
        ] {
            assert_eq!(fault.to_string(), line(&fault));
            for text in [1, 2] {
                let fault = TextFault { text, fault };
                assert_eq!(fault.to_string(), line(&fault));
            }
        }
    }
}

fn each_call(text: &[u8]) -> Result<Vec<u8>, Box<dyn Error>> {
    let json = json_of(text)?;
    let mut tokens = Tokens::new(PlacedBytes::new(text));
    while tokens.next()?.is_some() {}
    assert_eq!(minify(text, Tokens::new(PlacedBytes::new(text)))?, json);
    let mut lines = Vec::new();
    run(Prints::Texts, &mut &text[..], &mut lines)?;
    let mut texts = Texts::new();
    texts.push(text)?;
    texts.finish()?;
    assert_eq!(texts.lines(), lines);
    Ok(json)
}

#[test]
fn each_call_goes_on_by_the_question_mark() {
    assert_eq!(each_call(b"[1, {}]").unwrap(), b"[1,{}]");
    let fault = each_call(b"[1,\n}").unwrap_err();
    assert_eq!(
        fault.to_string(),
        "line 2, column 1: unexpected '}', expected a value"
    );
    let minified = |text: &[u8]| -> Result<_, Box<dyn Error>> {
        Ok(minify(text, Tokens::new(PlacedBytes::new(text)))?)
    };
    assert_eq!(
        minified(b"[1, }").unwrap_err().to_string(),
        "the token at byte 4 may not stand there, expected a value"
    );
    assert_eq!(
        minified(b"[").unwrap_err().to_string(),
        "the tokens end where one is missing, expected a value or ']'"
    );
    assert_eq!(
        minified(b"[?").unwrap_err().to_string(),
        "byte 1 begins no token"
    );
    let bytes = [Ok((0, b'[')), Err(io::Error::new(ErrorKind::Other, "a fern"))];
    let failed = minify(b"[", Tokens::new(convert(bytes.into_iter()))).unwrap_err();
    assert_eq!(failed.to_string(), "a fern");
}

/// Yields a chunk a read, interrupted before each.
struct Chunks<'a>(Vec<&'a [u8]>, bool);

impl Read for Chunks<'_> {
    fn read(&mut self, buf: &mut [u8]) -> io::Result<usize> {
        self.1 = !self.1;
        if self.1 {
            return Err(ErrorKind::Interrupted.into());
        }
        let count = match self.0.first_mut() {
            Some(chunk) => chunk.read(buf)?,
            None => return Err(io::Error::new(ErrorKind::BrokenPipe, "a fern")),
        };
        if self.0[0].is_empty() && self.0.len() > 1 {
            self.0.remove(0);
        }
        Ok(count)
    }
}

const TEXTS: &[u8] = "[1, \"\u{e9}\u{1f33f}\\u00e9\", -2.5e3]\n{\"at\": [true, null]} 7 \"x\"\n".as_bytes();
const LINES: &[u8] = "[1,\"\u{e9}\u{1f33f}\\u00e9\",-2.5e3]\n{\"at\":[true,null]}\n7\n\"x\"\n".as_bytes();

#[test]
fn chunks_of_each_size_are_the_same_texts() {
    for size in 1..=TEXTS.len() {
        let chunks: Vec<&[u8]> = TEXTS.chunks(size).collect();
        let (mut texts, mut lines) = (Texts::new(), Vec::new());
        for chunk in &chunks {
            texts.push(chunk).unwrap();
            lines.extend_from_slice(texts.lines());
            texts.clear_lines();
        }
        texts.finish().unwrap();
        lines.extend_from_slice(texts.lines());
        assert_eq!((texts.count(), &lines[..]), (4, LINES));
        let mut printed = Vec::new();
        run(Prints::Texts, &mut Chunks(chunks, false), &mut printed).unwrap();
        assert_eq!(printed, LINES);
    }
}

#[test]
fn a_fault_has_the_same_place_in_chunks_of_each_size() {
    for bad in [&b"[1]\n[2,\n ]"[..], b"[1] [2", b"1 \"\xff\"", b"1\n\xe9", b"7 tru", b"\"\xc3"] {
        let mut lines = Vec::new();
        let whole = run(Prints::Texts, &mut &bad[..], &mut lines).unwrap_err();
        for size in 1..=bad.len() {
            let (mut texts, mut fault) = (Texts::new(), None);
            for chunk in bad.chunks(size) {
                fault = fault.or(texts.push(chunk).err());
            }
            let last = texts.finish().unwrap_err();
            let found = match fault.unwrap_or(last) {
                Fault::Source(found) => found,
                Fault::Memory(_) => panic!("there is memory"),
            };
            assert!(matches!(whole, RunFault::Input(fault) if fault == found));
            assert_eq!(last, Fault::Source(found));
            assert_eq!(texts.lines(), lines);
        }
    }
}

#[test]
fn texts_after_an_end_have_their_lines() {
    let mut texts = Texts::new();
    texts.push(b"1\n2").unwrap();
    texts.finish().unwrap();
    let fault = texts.push(b" ]").unwrap_err();
    assert_eq!(
        fault.to_string(),
        "text 3, line 2, column 3: unexpected ']', expected a value"
    );
}

#[test]
fn a_failed_read_keeps_its_error() {
    let mut reader = Chunks(Vec::new(), false);
    let fault = run(Prints::Texts, &mut reader, &mut Vec::new()).unwrap_err();
    assert_eq!(fault.to_string(), "read failed");
    assert_eq!(fault.source().unwrap().to_string(), "a fern");
}

type Seen = (Kind, usize, String);

/// The checked tokens of a text up to the end or the first fault, and what that says.
fn checked(text: &[u8]) -> (Vec<Seen>, Option<String>) {
    let mut tokens = CheckedTokens::new(PlacedBytes::new(text));
    let mut seen = Vec::new();
    loop {
        match tokens.next() {
            Ok(Some(token)) => {
                assert_eq!(token.text, &text[token.first..=token.last]);
                seen.push((
                    token.kind,
                    token.depth,
                    String::from_utf8(token.text).unwrap(),
                ));
            }
            Ok(None) => return (seen, None),
            Err(fault) => {
                assert!(matches!(tokens.next(), Ok(None)));
                return (seen, Some(fault.to_string()));
            }
        }
    }
}

#[test]
fn checked_tokens_have_their_kind_their_depth_and_their_text() {
    let (seen, fault) =
        checked(b" {\"pr\\u0069ce\": [1.5, -2e3], \"a\": {\"b\": \"c\"}, \"d\": [true, false, null]}\n");
    assert_eq!(fault, None);
    let shown: Vec<_> = seen.iter().map(|(kind, depth, text)| (*kind, *depth, &text[..])).collect();
    assert_eq!(
        shown,
        [
            (Kind::BeginObject, 0, "{"),
            (Kind::Name, 1, "\"pr\\u0069ce\""),
            (Kind::BeginArray, 1, "["),
            (Kind::Number, 2, "1.5"),
            (Kind::Number, 2, "-2e3"),
            (Kind::EndArray, 1, "]"),
            (Kind::Name, 1, "\"a\""),
            (Kind::BeginObject, 1, "{"),
            (Kind::Name, 2, "\"b\""),
            (Kind::Text, 2, "\"c\""),
            (Kind::EndObject, 1, "}"),
            (Kind::Name, 1, "\"d\""),
            (Kind::BeginArray, 1, "["),
            (Kind::True, 2, "true"),
            (Kind::False, 2, "false"),
            (Kind::Null, 2, "null"),
            (Kind::EndArray, 1, "]"),
            (Kind::EndObject, 0, "}"),
        ]
    );
}

#[test]
fn checked_tokens_end_at_the_fault_of_the_check() {
    for (text, kinds, said) in [
        ("{\"price\" 1.5,,]", 2, "the token at byte 9 may not stand there, expected ':'"),
        ("[1,,2]", 2, "the token at byte 3 may not stand there, expected a value"),
        ("[1]2", 3, "the token at byte 3 may not stand there, expected the end"),
        ("[", 1, "the tokens end where one is missing, expected a value or ']'"),
        ("", 0, "the tokens end where one is missing, expected a value"),
        ("[?", 1, "byte 1 begins no token"),
        ("[tru]", 1, "byte 3 is the last of a token that isn't whole, expected 'e'"),
    ] {
        let (seen, fault) = checked(text.as_bytes());
        assert_eq!((seen.len(), fault.as_deref()), (kinds, Some(said)), "{text}");
        let minified = minify(text.as_bytes(), Tokens::new(PlacedBytes::new(text.as_bytes())));
        assert_eq!(minified.unwrap_err().to_string(), said);
    }
    let bytes = [Ok((0, b'[')), Ok((1, b' ')), Err(io::Error::new(ErrorKind::Other, "a fern"))];
    let mut tokens = CheckedTokens::new(convert(bytes.into_iter()));
    assert_eq!(tokens.next().unwrap().unwrap().kind, Kind::BeginArray);
    assert_eq!(tokens.next().unwrap_err().to_string(), "a fern");
    assert!(tokens.next().unwrap().is_none());
}

#[test]
fn a_container_is_skipped_to_its_end() {
    let text = &b"{\"a\": [1, [2, {\"b\": 3}], 4], \"c\": 5}"[..];
    let mut tokens = CheckedTokens::new(PlacedBytes::new(text));
    let mut names = Vec::new();
    while let Some(token) = tokens.next().unwrap() {
        match token.kind {
            Kind::Name => names.push(token.text),
            Kind::BeginArray => {
                let end = tokens.find(|it| Ok(it.depth <= token.depth)).unwrap().unwrap();
                assert_eq!((end.kind, end.depth, end.first), (Kind::EndArray, 1, 26));
            }
            _ => {}
        }
    }
    assert_eq!(names, [&b"\"a\""[..], b"\"c\""]);
}
