//! An interrupted read is tried again, and what a failed read has of std is kept.
use program_io::fault::{fault_of_read, RunFault};
use program_io::memory::Fault;
use program_io::reading::{read_up_to, Buffered, ReadByte, Unread};
use std::error::Error;
use std::fmt::Debug;
use std::io::{self, BufReader, ErrorKind, Read};

/// Yields its bytes one a read. Each second read is interrupted, and that at `fails` fails.
#[derive(Debug)]
struct Wavering<'a> {
    bytes: &'a [u8],
    reads: usize,
    fails: usize,
}

fn wavering(bytes: &[u8], fails: usize) -> Wavering<'_> {
    let reads = 0;
    Wavering {
        bytes,
        reads,
        fails,
    }
}

impl Read for Wavering<'_> {
    fn read(&mut self, buf: &mut [u8]) -> io::Result<usize> {
        self.reads += 1;
        if self.reads == self.fails {
            return Err(io::Error::new(ErrorKind::ConnectionReset, "cut by a fern"));
        }
        if self.reads % 2 == 1 {
            return Err(ErrorKind::Interrupted.into());
        }
        let count = buf.len().min(1);
        self.bytes.read(&mut buf[..count])
    }
}

fn all_of(mut reader: impl ReadByte) -> Result<Vec<u8>, Box<dyn Error>> {
    let mut bytes = Vec::new();
    while let Some(byte) = reader.read_byte()? {
        bytes.push(byte);
    }
    Ok(bytes)
}

#[test]
fn interrupted_reads_are_tried_again() {
    assert_eq!(all_of(wavering(b"fern", 0)).unwrap(), b"fern");
    let buffered = Buffered::new(BufReader::new(wavering(b"fern", 0)));
    assert_eq!(all_of(buffered).unwrap(), b"fern");
}

#[test]
fn the_error_of_a_failed_read_is_its_source() {
    let failed = all_of(wavering(b"fern", 3)).unwrap_err();
    assert_eq!(failed.to_string(), "read failed");
    assert_eq!(failed.source().unwrap().to_string(), "cut by a fern");
    let mut bytes = Vec::new();
    let unread = read_up_to(&mut wavering(b"fern", 3), &mut bytes, 4).unwrap_err();
    assert!(matches!(&unread, Unread::Failed(failed)
        if failed.io_error().map(io::Error::kind) == Some(ErrorKind::ConnectionReset)));
    assert_eq!(unread.source().unwrap().to_string(), "cut by a fern");
    match unread {
        Unread::Failed(failed) => {
            assert_eq!(io::Error::from(failed).kind(), ErrorKind::ConnectionReset)
        }
        _ => panic!("the read failed"),
    }
}

#[test]
fn faults_go_on_by_the_question_mark() {
    fn gone_on<E: Error + 'static>(fault: E) -> Result<(), Box<dyn Error>> {
        Err(fault)?
    }
    fn fault(kind: ErrorKind) -> RunFault<Fault<io::Error>> {
        fault_of_read(io::Error::from(kind))
    }
    for (kind, said, has_source) in [
        (ErrorKind::NotFound, "read failed", true),
        (ErrorKind::OutOfMemory, "no memory", false),
    ] {
        let found = gone_on(fault(kind)).unwrap_err();
        assert_eq!(found.to_string(), said);
        assert_eq!(found.source().is_some(), has_source);
    }
    let inner = RunFault::Input(Fault::Source(io::Error::new(ErrorKind::Other, "a fern")));
    assert_eq!(gone_on(inner).unwrap_err().to_string(), "a fern");
    let full = io::Error::new(ErrorKind::Other, "a full fern");
    let unwritten: RunFault<Fault<io::Error>> = RunFault::Write(full.into());
    let found = gone_on(unwritten).unwrap_err();
    assert_eq!(found.to_string(), "write failed");
    assert_eq!(found.source().unwrap().to_string(), "a full fern");
    assert_eq!(gone_on(Unread::End).unwrap_err().to_string(), "the input ended");
    fn shown(_: impl Debug) {}
    shown(Buffered::new(BufReader::new(wavering(b"", 0))));
}
