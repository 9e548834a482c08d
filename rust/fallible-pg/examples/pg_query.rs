//! Sends a query to a PostgreSQL server, and prints the rows as `psql -A -t` does, each as it comes. It tells of the query's notices on standard error.
//!
//!     pg_query ADDRESS USER DATABASE QUERY
//!
//! If the server asks for the password in clear text, it sends that of the variable `PGPASSWORD`. At the first fault it says why, and ends with status 1 if the server refuses the session or a statement, 2 if a read fails, there is no connection, or the words are others, 4 if a write fails, 5 at damage, 6 if the bytes are cut, and 7 at COPY and another proof of identity than a password in clear text.
//!
//! Messages, rows, and what is sent are the crate's. The socket and the session's start are written by hand.
use fallible_iterator::FallibleIterator;
use fallible_pg::{
    Buffered, Damage, Format, Lent, Messages, PgFault, PgInput, ReadByte, Request, RowText, Rows,
    RunFault, Unsent, password_message, print_rows, query_message, request_of, startup_message,
    terminate_message,
};
use program_io::ending::ended;
use std::io::{BufReader, Write, stderr, stdout};
use std::net::TcpStream;
use std::process::ExitCode;

/// Who asks, and for what.
pub struct Session<'a> {
    /// the user's name
    pub user: &'a str,
    /// the database's name
    pub database: &'a str,
    /// the password, if one is known
    pub password: Option<&'a str>,
    /// the query
    pub query: &'a str,
}

/// Why no rows were asked for, or why no more were printed.
#[derive(Debug)]
pub enum Stopped {
    /// as a run of the program `pg_rows`
    Run(RunFault<PgInput>),
    /// the server asks for another proof of identity, by its number
    Identity(u32),
    /// the server asks for a password, and none is known
    NoPassword,
    /// what is to be sent is longer than a server takes
    Long,
}

/// Sends a message by one write. Of several the system would hold back the second until the first is acknowledged.
fn send(writer: &mut impl Write, message: Result<Vec<u8>, Unsent>) -> Result<(), Stopped> {
    let message = message.map_err(|why| match why {
        Unsent::Long => Stopped::Long,
        Unsent::Memory => Stopped::Run(RunFault::Memory),
    })?;
    let sent = writer.write_all(&message).and_then(|()| writer.flush());
    sent.map_err(|error| Stopped::Run(RunFault::Write(error.into())))
}

/// What a fault of messages is for the run.
fn stopped_by(fault: PgFault) -> Stopped {
    Stopped::Run(match fault {
        PgFault::Server(message) => RunFault::Input(PgInput::Server(message)),
        PgFault::Damaged(place, damage) => RunFault::Input(PgInput::Damaged(place, damage)),
        PgFault::Read(failed) => RunFault::Read(failed),
        PgFault::Memory => RunFault::Memory,
    })
}

/// Answers what a server asks for.
fn answer(writer: &mut impl Write, request: Request, session: &Session) -> Result<(), Stopped> {
    match (request, session.password) {
        (Request::Nothing, _) => Ok(()),
        (Request::Password, Some(password)) => send(writer, password_message(password)),
        (Request::Password, None) => Err(Stopped::NoPassword),
        (Request::Other(number), _) => Err(Stopped::Identity(number)),
    }
}

/// Starts a session, up to where the server is ready for a query. Nothing after that is read.
pub fn start(
    reader: impl ReadByte,
    writer: &mut impl Write,
    session: &Session,
) -> Result<(), Stopped> {
    send(writer, startup_message(session.user, session.database))?;
    let mut place = 0;
    let mut messages = Messages::unbuffered(reader);
    while let Some(message) = messages.next().map_err(stopped_by)? {
        let at = place;
        place += message.bytes().len() as u64;
        match (message.tag(), request_of(&message)) {
            (b'Z', _) => return Ok(()),
            (_, Some(request)) => answer(writer, request, session)?,
            // The key of the session, a parameter, a notice.
            (b'K' | b'S' | b'N', _) => {}
            (b'E', _) => return Err(stopped_by(PgFault::Server(message))),
            (tag, _) => return Err(stopped_by(PgFault::Damaged(at, Damage::Tag(tag)))),
        }
    }
    Err(stopped_by(PgFault::Damaged(place, Damage::Cut)))
}

/// Prints the rows of the session's query, tells `errors` of its notices, and ends the session.
pub fn run(
    mut reader: impl ReadByte,
    writer: &mut impl Write,
    session: &Session,
    output: &mut impl Write,
    errors: &mut impl Write,
) -> Result<(), Stopped> {
    let lent = Lent {
        reader: &mut reader,
    };
    start(lent, writer, session)?;
    send(writer, query_message(session.query))?;
    let mut rows = Rows::new(Messages::unbuffered(reader));
    let format = Format {
        null: b"",
        csv: false,
    };
    let printed = print_rows(&mut rows, format, &mut RowText::new(), output, errors);
    // The server ends the session too where the connection is closed.
    let _ = send(writer, terminate_message());
    printed.map_err(Stopped::Run)
}

/// How a proof of identity is named, by its number.
fn identity(number: u32) -> &'static str {
    match number {
        2 => "Kerberos",
        5 => "an MD5 password",
        7 | 8 => "GSSAPI",
        9 => "SSPI",
        10..=12 => "SASL, as SCRAM-SHA-256",
        _ => "an unknown proof of identity",
    }
}

/// Says why no more rows were printed. The status.
pub fn told(stopped: Result<(), Stopped>, errors: &mut impl Write) -> u8 {
    let (status, line) = match stopped {
        Ok(()) => return 0,
        Err(Stopped::Run(fault)) => {
            return match ended(Err(fault), None, errors) {
                Ok(status) | Err(status) => status,
            };
        }
        Err(Stopped::Identity(number)) => {
            let name = identity(number);
            (
                7,
                format!(
                    "the server asks for {name} (request {number}), and only a password in clear text is sent"
                ),
            )
        }
        Err(Stopped::NoPassword) => (
            2,
            "the server asks for a password, and PGPASSWORD isn't set".into(),
        ),
        Err(Stopped::Long) => (2, "the query is longer than a server takes".into()),
    };
    let _ = writeln!(errors, "{line}");
    status
}

fn main() -> ExitCode {
    let words = std::env::args_os().skip(1).map(|word| word.into_string());
    let words = match words.collect::<Result<Vec<String>, _>>() {
        Ok(words) => words,
        Err(word) => {
            eprintln!("{word:?} is no UTF-8");
            return ExitCode::from(2);
        }
    };
    let (address, user, database, query) = match &words[..] {
        [address, user, database, query] => (address, user, database, query),
        _ => {
            eprintln!("usage: pg_query ADDRESS USER DATABASE QUERY");
            return ExitCode::from(2);
        }
    };
    let password = std::env::var("PGPASSWORD").ok();
    let session = Session {
        user,
        database,
        password: password.as_deref(),
        query,
    };
    match TcpStream::connect(address) {
        Ok(stream) => {
            let reader = Buffered::new(BufReader::new(&stream));
            let mut errors = stderr();
            let stopped = run(
                reader,
                &mut &stream,
                &session,
                &mut stdout().lock(),
                &mut errors,
            );
            ExitCode::from(told(stopped, &mut errors))
        }
        Err(error) => {
            eprintln!("{address}: {error}");
            ExitCode::from(2)
        }
    }
}

#[cfg(test)]
mod tests {
    use super::*;
    use fallible_pg::Bytes;
    use std::io::Read;
    use std::net::TcpListener;

    const READY: &[u8] = b"Z\0\0\0\x05I";
    const NOTHING_MORE: &[u8] = b"R\0\0\0\x08\0\0\0\0";
    const PASSWORD: &[u8] = b"R\0\0\0\x08\0\0\0\x03";
    const ROWS: &[u8] = b"D\0\0\0\x0b\0\x01\0\0\0\x011D\0\0\0\x10\0\x02\xff\xff\xff\xff\0\0\0\x02\xc3\xa9C\0\0\0\x04";
    const STARTUP: &[u8] = b"\0\0\0\x32\0\x03\0\0user\0me\0database\0db\0client_encoding\0UTF8\0\0";
    const SESSION: Session = Session {
        user: "me",
        database: "db",
        password: Some("x"),
        query: "select",
    };

    /// The status over what a server sends, what is sent, printed and told.
    fn run_of(received: &[&[u8]], session: &Session) -> (u8, Vec<u8>, String, String) {
        let (mut sent, mut output, mut errors) = (Vec::new(), Vec::new(), Vec::new());
        let received = received.concat();
        let reader = Bytes::new(&received);
        let stopped = run(reader, &mut sent, session, &mut output, &mut errors);
        let status = told(stopped, &mut errors);
        let text = |bytes| String::from_utf8(bytes).unwrap();
        (status, sent, text(output), text(errors))
    }

    #[test]
    fn rows_are_printed_and_all_is_sent_byte_by_byte() {
        let found = run_of(&[PASSWORD, NOTHING_MORE, READY, ROWS, READY], &SESSION);
        let sent = [
            STARTUP,
            b"p\0\0\0\x06x\0",
            b"Q\0\0\0\x0bselect\0",
            b"X\0\0\0\x04",
        ]
        .concat();
        assert_eq!(found, (0, sent, "1\n|é\n".into(), "".into()));
    }

    #[test]
    fn a_key_parameters_and_notices_are_passed() {
        let passed = b"K\0\0\0\x04S\0\0\0\x04N\0\0\0\x05\0";
        let found = run_of(&[NOTHING_MORE, passed, READY, READY], &SESSION);
        let sent = [STARTUP, b"Q\0\0\0\x0bselect\0", b"X\0\0\0\x04"].concat();
        assert_eq!(found, (0, sent, "".into(), "".into()));
    }

    #[test]
    fn notices_of_the_query_are_told() {
        let notice = b"N\0\0\0\x18SNOTICE\0C00000\0Mhi\0\0";
        let found = run_of(&[NOTHING_MORE, READY, notice, ROWS, READY], &SESSION);
        let (status, _, printed, line) = found;
        assert_eq!((status, &printed[..]), (0, "1\n|é\n"));
        assert_eq!(line, "NOTICE:  00000: hi\n");
    }

    #[test]
    fn what_starts_no_session_is_told() {
        let other = |number| [b"R\0\0\0\x08\0\0\0".as_slice(), &[number]].concat();
        let only = "and only a password in clear text is sent";
        for (received, status, line) in [
            (
                other(5),
                7,
                format!("the server asks for an MD5 password (request 5), {only}\n"),
            ),
            (
                other(10),
                7,
                format!("the server asks for SASL, as SCRAM-SHA-256 (request 10), {only}\n"),
            ),
            (
                b"E\0\0\0\x17SFATAL\0C28000\0Mno\0\0".to_vec(),
                1,
                "FATAL:  28000: no\n".into(),
            ),
            (
                b"D\0\0\0\x04".to_vec(),
                5,
                "byte 0: a message has the unexpected tag 68\n".into(),
            ),
            (
                NOTHING_MORE.to_vec(),
                6,
                "byte 9: the connection ended within a message\n".into(),
            ),
        ] {
            let found = run_of(&[&received], &SESSION);
            assert_eq!(found, (status, STARTUP.to_vec(), "".into(), line));
        }
    }

    #[test]
    fn no_password_is_sent_where_none_is_known() {
        let session = Session {
            password: None,
            ..SESSION
        };
        let (status, sent, _, line) = run_of(&[PASSWORD], &session);
        assert_eq!((status, sent), (2, STARTUP.to_vec()));
        assert_eq!(
            line,
            "the server asks for a password, and PGPASSWORD isn't set\n"
        );
    }

    #[test]
    fn a_fault_of_the_rows_is_told_by_its_place_after_the_query() {
        let found = run_of(
            &[NOTHING_MORE, READY, &ROWS[..12], b"H\0\0\0\x04"],
            &SESSION,
        );
        assert_eq!(
            (found.0, &found.2[..], &found.3[..]),
            (7, "1\n", "byte 12: COPY isn't read\n")
        );
    }

    #[test]
    fn a_session_goes_over_a_socket() {
        let listener = TcpListener::bind("127.0.0.1:0").unwrap();
        let address = listener.local_addr().unwrap();
        let server = std::thread::spawn(move || {
            let (mut stream, _) = listener.accept().unwrap();
            stream
                .write_all(&[NOTHING_MORE, READY, ROWS, READY].concat())
                .unwrap();
            let mut sent = Vec::new();
            stream.read_to_end(&mut sent).unwrap();
            sent
        });
        let stream = TcpStream::connect(address).unwrap();
        let (mut output, mut errors) = (Vec::new(), Vec::new());
        let reader = Buffered::new(BufReader::new(&stream));
        run(reader, &mut &stream, &SESSION, &mut output, &mut errors).unwrap();
        drop(stream);
        assert_eq!(output, "1\n|é\n".as_bytes());
        let sent = [STARTUP, b"Q\0\0\0\x0bselect\0", b"X\0\0\0\x04"].concat();
        assert_eq!(server.join().unwrap(), sent);
    }
}
