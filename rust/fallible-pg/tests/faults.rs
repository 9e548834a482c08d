//! Faults as errors of Rust, and readers that yield little at a time or are interrupted.
use fallible_iterator::FallibleIterator;
use fallible_pg::{
    Bytes, Damage, Hash, Messages, PgFault, PgInput, Reply, Rows, Unsent, answer_of,
    password_message, query_message, scram_first_message, startup_message, terminate_message,
};
use program_io::fault::InputFault;
use std::error::Error;
use std::io::{self, ErrorKind, Read};

const REFUSAL: &[u8] = b"E\0\0\0\x28SERROR\0C42601\0Mno such fern\0Done\0H\0\0";
const SENT: &[u8] = b"D\0\0\0\x0e\0\x01\0\0\0\x04fernD\0\0\0\x0a\0\x01\xff\xff\xff\xffZ\0\0\0\x05I";

/// Yields at most so many bytes a read, interrupted before each; at the end it fails, if it is told so.
struct Wavering<'a> {
    bytes: &'a [u8],
    size: usize,
    reads: usize,
    fails: bool,
}

fn wavering(bytes: &[u8], size: usize, fails: bool) -> Wavering<'_> {
    let reads = 0;
    Wavering {
        bytes,
        size,
        reads,
        fails,
    }
}

impl Read for Wavering<'_> {
    fn read(&mut self, buf: &mut [u8]) -> io::Result<usize> {
        self.reads += 1;
        if self.reads % 2 == 1 {
            return Err(ErrorKind::Interrupted.into());
        }
        if self.bytes.is_empty() && self.fails {
            return Err(io::Error::new(ErrorKind::ConnectionReset, "a fern"));
        }
        let count = buf.len().min(self.size);
        self.bytes.read(&mut buf[..count])
    }
}

fn cells<R: fallible_pg::ReadMessage>(
    messages: Messages<R>,
) -> Result<Vec<Option<Vec<u8>>>, Box<dyn Error>> {
    let (mut rows, mut found) = (Rows::new(messages), Vec::new());
    while let Some(reply) = rows.next()? {
        if let Reply::Row(row) = reply {
            let mut cells = row.cells();
            while let Some(cell) = cells.next()? {
                found.push(cell.map(<[u8]>::to_vec));
            }
        }
    }
    Ok(found)
}

#[test]
fn rows_are_the_same_over_each_reader() {
    let wanted = [Some(b"fern".to_vec()), None];
    assert_eq!(
        cells(Messages::unbuffered(Bytes::new(SENT))).unwrap(),
        wanted
    );
    for size in 1..=SENT.len() {
        let buffered = Messages::new(wavering(SENT, size, false));
        assert_eq!(cells(buffered).unwrap(), wanted);
        let unbuffered = Messages::unbuffered(wavering(SENT, size, false));
        assert_eq!(cells(unbuffered).unwrap(), wanted);
    }
}

#[test]
fn nothing_after_the_last_message_is_read_without_a_buffer() {
    let after = [SENT, b"fern"].concat();
    let mut reader = &after[..];
    cells(Messages::unbuffered(&mut reader)).unwrap();
    assert_eq!(reader, b"fern");
}

#[test]
fn a_failed_read_keeps_its_error() {
    let messages = Messages::new(wavering(&SENT[..20], 3, true));
    let fault = cells(messages).unwrap_err();
    assert_eq!(fault.to_string(), "read failed");
    assert_eq!(fault.source().unwrap().to_string(), "a fern");
}

#[test]
fn faults_say_what_the_program_prints() {
    let line = |fault: &PgInput| {
        let mut line = Vec::new();
        fault.write_line(&mut line).unwrap();
        assert_eq!(line.pop(), Some(b'\n'));
        String::from_utf8(line).unwrap()
    };
    let mut damages = vec![Damage::Cut, Damage::Length(3), Damage::Row, Damage::Columns];
    damages.extend((0..=255).map(Damage::Tag));
    for damage in damages {
        let said = line(&PgInput::Damaged(7, damage));
        assert_eq!(PgInput::Damaged(7, damage).to_string(), said);
        assert_eq!(PgFault::Damaged(7, damage).to_string(), said);
        assert_eq!(format!("byte 7: {damage}"), said);
    }
    let refused = |detailed: bool| {
        let mut bytes = REFUSAL.to_vec();
        if !detailed {
            bytes.truncate(bytes.len() - 8);
            bytes.push(0);
            bytes[4] -= 7;
        }
        Messages::unbuffered(Bytes::new(&bytes))
            .next()
            .unwrap()
            .unwrap()
    };
    for detailed in [true, false] {
        let message = refused(detailed);
        assert_eq!(message.field(b'C'), b"42601");
        assert_eq!(message.field(b'W'), b"");
        let said = line(&PgInput::Server(message.clone()));
        assert_eq!(said.lines().count(), if detailed { 2 } else { 1 });
        assert_eq!(PgInput::Server(message.clone()).to_string(), said);
        assert_eq!(PgFault::Server(message).to_string(), said);
    }
}

struct NoHash;

impl Hash for NoHash {
    fn hash(&self, _: &[u8]) -> [u8; 32] {
        [0; 32]
    }

    fn hmac(&self, _: &[u8], _: &[u8]) -> [u8; 32] {
        [0; 32]
    }

    fn stretch(&self, _: &[u8], _: &[u8], _: u64) -> [u8; 32] {
        [0; 32]
    }
}

#[test]
fn each_call_goes_on_by_the_question_mark() {
    fn each_call() -> Result<(), Box<dyn Error>> {
        startup_message("me", "db")?;
        password_message("x")?;
        query_message("select 1")?;
        terminate_message()?;
        scram_first_message(b"own")?;
        let asked = b"r=ownabc,s=c2FsdA==,i=4096";
        let answer = answer_of(&NoHash, b"x", b"own", asked)?.ok_or("no question")?;
        answer.message()?;
        let bytes = [REFUSAL, SENT].concat();
        cells(Messages::unbuffered(Bytes::new(&bytes)))?;
        Ok(())
    }
    let refusal = each_call().unwrap_err();
    assert!(
        refusal
            .to_string()
            .starts_with("ERROR:  42601: no such fern")
    );
    let long: Box<dyn Error> = Unsent::Long.into();
    assert_eq!(
        long.to_string(),
        "the message is longer than a server takes"
    );
}
