//! The input that a program's words ask for: standard input, or the one file that they name.

#[cfg(feature = "std")]
use crate::fault::InputFault;
use crate::fault::RunFault;
#[cfg(feature = "std")]
use crate::fault::fault_line;
#[cfg(feature = "std")]
use crate::runtime::Args;
#[cfg(feature = "std")]
use crate::runtime::Env;
#[cfg(feature = "std")]
use crate::runtime::File;
#[cfg(feature = "std")]
use crate::runtime::Files;
#[cfg(feature = "std")]
use crate::runtime::OpenFile;
#[cfg(feature = "std")]
use crate::runtime::env;
#[cfg(feature = "std")]
use crate::writing::WriteText;
#[cfg(feature = "std")]
use crate::writing::write_shown;
use alloc::string::String;
#[cfg(feature = "std")]
use std::io;
#[cfg(feature = "std")]
use std::io::ErrorKind;
#[cfg(feature = "std")]
use std::io::Read;

/// What a program's words ask for.
#[cfg(feature = "std")]
#[derive(Debug, PartialEq, Eq)]
pub enum Asked {
    /// The usage text.
    Help,
    /// Nothing that there is: this word is an option other than `--help` and `-h`, or comes after the first.
    Unexpected(String),
    /// That it reads standard input.
    Standard,
    /// That it reads the file at this path.
    File(String),
}

// What a word asks for that is no option: `-` for standard input.
#[cfg(feature = "std")]
fn asked_named(word: String) -> Asked {
    if word.as_str() == "-" {
        Asked::Standard
    } else {
        Asked::File(word)
    }
}

// What the first word asks for.
#[cfg(feature = "std")]
fn asked_first(word: String) -> Asked {
    match word.as_str() {
        "--help" | "-h" => Asked::Help,
        "-" => Asked::Standard,
        text => {
            if text.as_bytes().first() == Some(&b'-') {
                Asked::Unexpected(word)
            } else {
                Asked::File(word)
            }
        }
    }
}

// What a word asks for, by the words after it: an input has none.
#[cfg(feature = "std")]
fn with_further(asked: Asked, mut words: Args) -> Asked {
    match (asked, words.next()) {
        (Asked::Standard | Asked::File(_), Some(further)) => Asked::Unexpected(further),
        (asked, _) => asked,
    }
}

/// What a word and those after it ask for, as `asked_by` says of the second word on.
#[cfg(feature = "std")]
pub fn asked_from(word: String, mut words: Args) -> Asked {
    if word.as_str() != "--" {
        return with_further(asked_first(word), words);
    }
    match words.next() {
        Some(path) => with_further(asked_named(path), words),
        None => Asked::Standard,
    }
}

/// What a program's words ask for, of which the first is its name. No other word asks for standard input, and so does `-`; `--help` and `-h` ask for the usage text, and a word that doesn't begin with `-` for the file at that path. After `--`, which ends the options, so does each other word than `-`. `Unexpected` tells the first word that is none of these, or that comes after one for an input.
#[cfg(feature = "std")]
pub fn asked_by(mut words: Args) -> Asked {
    let _ = words.next();
    match words.next() {
        Some(word) => asked_from(word, words),
        None => Asked::Standard,
    }
}

/// Why a file can't be opened.
#[derive(Clone, Copy, Debug)]
pub enum Reason {
    /// There is none.
    Missing,
    /// It is a folder.
    Folder,
    /// The system doesn't permit it.
    Forbidden,
    /// Something else.
    Other,
}

impl Reason {
    // What is told of it after the file's name.
    fn text(self) -> &'static str {
        match self {
            Reason::Missing => ": no such file",
            Reason::Folder => ": a folder",
            Reason::Forbidden => ": not permitted",
            Reason::Other => "",
        }
    }
}

// The reason of a failed opening.
#[cfg(feature = "std")]
fn reason_of(error: &io::Error) -> Reason {
    match error.kind() {
        ErrorKind::NotFound => Reason::Missing,
        ErrorKind::PermissionDenied => Reason::Forbidden,
        _ => Reason::Other,
    }
}

// The file at a path, to be read, or why it can't be opened. The system opens a folder too, and fails where that is read.
#[cfg(feature = "std")]
fn opened<R: Files>(rt: &R, path: &str) -> Result<R::File, Reason> {
    let file = match File::open(rt, path) {
        Ok(file) => file,
        Err(error) => return Err(reason_of(&error)),
    };
    match file.metadata() {
        Ok(found) if found.is_dir() => Err(Reason::Folder),
        _ => Ok(file),
    }
}

/// What is wrong with a program's words.
#[derive(Debug)]
pub enum Refusal<'a> {
    /// This word asks for nothing that there is. The usage text is told after it.
    Word(String, &'a str),
    /// The file at this path can't be opened.
    Unopened(String, Reason),
    /// A word is not UTF-8.
    NoText,
}

// Writes what is told of a word that asks for nothing, without the last newline.
#[cfg(feature = "std")]
fn write_word<W: WriteText>(word: &str, usage: &str, errors: &mut W) -> io::Result<()> {
    write_shown(word, errors)?;
    errors.write_text(format_args!(": unexpected\n{usage}"))
}

// Writes what is told of a file that can't be opened, without the newline.
#[cfg(feature = "std")]
fn write_unopened<W: WriteText>(path: &str, reason: Reason, errors: &mut W) -> io::Result<()> {
    errors.write_text("cannot open ")?;
    write_shown(path, errors)?;
    errors.write_text(reason.text())
}

#[cfg(feature = "std")]
impl Refusal<'_> {
    // Writes the line that tells of it, without its newline.
    fn write<W: WriteText>(&self, errors: &mut W) -> io::Result<()> {
        match self {
            Refusal::Word(word, usage) => write_word(word.as_str(), usage, errors),
            Refusal::Unopened(path, reason) => write_unopened(path.as_str(), *reason, errors),
            Refusal::NoText => errors.write_text("not UTF-8"),
        }
    }
}

#[cfg(feature = "std")]
impl InputFault for Refusal<'_> {
    // 2
    fn status(&self) -> u8 {
        2
    }

    fn write_line<W: WriteText>(&self, errors: &mut W) -> io::Result<()> {
        self.write(errors)?;
        errors.write_bytes(b"\n")
    }
}

/// Tells `errors` of a fault of the program's words, if that can be written. The status that the program ends with.
#[cfg(feature = "std")]
pub fn told<E: WriteText>(fault: &RunFault<Refusal<'_>>, errors: &mut E) -> u8 {
    match fault_line(fault, None, errors) {
        Ok(status) | Err(status) => status,
    }
}

/// What a program reads.
#[cfg(feature = "std")]
#[derive(Debug)]
pub enum Input<S, F> {
    /// Its standard input.
    Standard(S),
    /// A file.
    File(F),
}

#[cfg(feature = "std")]
impl<S: Read, F: Read> Read for Input<S, F> {
    fn read(&mut self, buf: &mut [u8]) -> io::Result<usize> {
        match self {
            Input::Standard(reader) => reader.read(buf),
            Input::File(reader) => reader.read(buf),
        }
    }
}

/// What a program reads, and the word that named it.
#[cfg(feature = "std")]
#[derive(Debug)]
pub struct Given<S, F> {
    /// What it reads.
    pub input: Input<S, F>,
    /// The path of a file; none of standard input.
    pub name: Option<String>,
}

// Prints the usage text. The status that the program ends with: 0, or 4 where the text can't be printed, which `errors` is told.
#[cfg(feature = "std")]
fn help<W: WriteText, E: WriteText>(usage: &str, output: &mut W, errors: &mut E) -> u8 {
    if output.write_text(format_args!("{usage}\n")).is_ok() {
        return 0;
    }
    told(&RunFault::Write(crate::failed::WriteFailed::new()), errors)
}

// Why the system's words are not known, by the error that it has of them.
#[cfg(feature = "std")]
fn fault_of_words<'a>(error: &io::Error) -> RunFault<Refusal<'a>> {
    match error.kind() {
        ErrorKind::OutOfMemory => RunFault::Memory,
        _ => RunFault::Input(Refusal::NoText),
    }
}

/// The program's words, of which the first is its name; or why they are not known: memory runs out, or one is not UTF-8.
#[cfg(feature = "std")]
pub fn words_of<'a, R: Env>(rt: &R) -> Result<Args, RunFault<Refusal<'a>>> {
    match env::args(rt) {
        Ok(words) => Ok(words),
        Err(error) => Err(fault_of_words(&error)),
    }
}

/// What the program reads, by its words (`asked_by`). Where that is nothing, the status that it ends with, as of `input_asked`; also 2 at a word that is not UTF-8, and 3 where there is no memory for the words.
#[cfg(feature = "std")]
pub fn input_of<R: Env + Files, S: Read, W: WriteText, E: WriteText>(
    rt: &R,
    standard: S,
    usage: &str,
    output: &mut W,
    errors: &mut E,
) -> Result<Given<S, R::File>, u8>
// Each status but 0 is that of a fault, of which `errors` is told.
{
    match words_of(rt) {
        Ok(words) => input_asked(rt, asked_by(words), standard, usage, output, errors),
        Err(fault) => Err(told(&fault, errors)),
    }
}

/// What the program reads, by what its words ask for. Where that is nothing, the status that the program ends with: 0 after `--help`, for which the usage text is printed; 4 where that fails; 2 at a word that it doesn't take, and where the file can't be opened. `errors` is told of all but the first, of a word with the usage text. `output` is written to at `--help` alone.
#[cfg(feature = "std")]
pub fn input_asked<R: Files, S: Read, W: WriteText, E: WriteText>(
    rt: &R,
    asked: Asked,
    standard: S,
    usage: &str,
    output: &mut W,
    errors: &mut E,
) -> Result<Given<S, R::File>, u8>
// Each status but 0 is that of a fault, of which `errors` is told.
{
    let fault = match asked {
        Asked::Standard => {
            return Ok(Given {
                input: Input::Standard(standard),
                name: None,
            });
        }
        Asked::File(path) => match opened(rt, path.as_str()) {
            Ok(file) => {
                return Ok(Given {
                    input: Input::File(file),
                    name: Some(path),
                });
            }
            Err(reason) => RunFault::Input(Refusal::Unopened(path, reason)),
        },
        Asked::Help => return Err(help(usage, output, errors)),
        Asked::Unexpected(word) => RunFault::Input(Refusal::Word(word, usage)),
    };
    Err(told(&fault, errors))
}
