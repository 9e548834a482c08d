//! Logs in at a PostgreSQL server, without TLS, sends it a query, and prints what it returns, each row as it comes: as `psql -A` does, without the count of rows, or with `--csv` as `psql --csv`. It tells of the notices on standard error. The README has the words and the variables.
//!
//! It ends with status 1 if the server refuses the session or a statement, 2 if a read fails, there is no connection or no password, or the words or variables are others, 4 if a write fails, 5 at damage, 6 if the bytes are cut, 7 at `COPY .. FROM STDIN` and another proof of identity, and 8 if the server doesn't prove that it knows the password.
//!
//! Messages, rows, the words of SCRAM and when the server's proof is accepted are those of the crate `fallible-pg`, whose bodies are proved ones. The rest is written by hand.
use beside::{Beside, Shared};
use fallible_iterator::FallibleIterator;
use fallible_pg::*;
use hash::{MOST_ROUNDS, Sha};
use place::Place;
use program_io::ending::ended;
use std::cell::RefCell;
use std::fs::File;
use std::io::{BufReader, ErrorKind, IsTerminal, Read, Write, stderr, stdin, stdout};
use std::net::{SocketAddr, TcpStream, ToSocketAddrs};
use std::os::unix::net::UnixStream;
use std::process::ExitCode;
use std::rc::Rc;
use std::time::Duration;
use words::{Asked, USAGE, Wanted, asked_by};

mod beside;
mod cancel;
mod hash;
mod place;
mod words;

/// A connection to the server.
pub enum Socket {
    Net(TcpStream),
    Local(UnixStream),
}

impl Socket {
    fn open(place: &Place) -> std::io::Result<Socket> {
        match place.socket() {
            Some(path) => UnixStream::connect(path).map(Socket::Local),
            None => connected(place).map(Socket::Net),
        }
    }

    /// Lets each read take so long at most.
    fn limit(&self, time: Option<Duration>) -> std::io::Result<()> {
        match self {
            Socket::Net(stream) => stream.set_read_timeout(time),
            Socket::Local(stream) => stream.set_read_timeout(time),
        }
    }
}

/// A connection to the first address that takes one.
fn connected(place: &Place) -> std::io::Result<TcpStream> {
    let addresses: Vec<SocketAddr> = match place.address {
        Some(address) => vec![(address, place.port).into()],
        None => (place.host.as_str(), place.port)
            .to_socket_addrs()?
            .collect(),
    };
    let mut why = ErrorKind::NotFound.into();
    for address in addresses {
        let tried = match place.timeout {
            Some(time) => TcpStream::connect_timeout(&address, time),
            None => TcpStream::connect(address),
        };
        match tried {
            Ok(stream) => return Ok(stream),
            Err(error) => why = error,
        }
    }
    Err(why)
}

impl Read for &Socket {
    fn read(&mut self, bytes: &mut [u8]) -> std::io::Result<usize> {
        match self {
            Socket::Net(stream) => (&*stream).read(bytes),
            Socket::Local(stream) => (&*stream).read(bytes),
        }
    }
}

impl Write for Socket {
    fn write(&mut self, bytes: &[u8]) -> std::io::Result<usize> {
        (&*self).write(bytes)
    }

    fn flush(&mut self) -> std::io::Result<()> {
        Ok(())
    }
}

impl Write for &Socket {
    fn write(&mut self, bytes: &[u8]) -> std::io::Result<usize> {
        match self {
            Socket::Net(stream) => (&*stream).write(bytes),
            Socket::Local(stream) => (&*stream).write(bytes),
        }
    }

    fn flush(&mut self) -> std::io::Result<()> {
        Ok(())
    }
}

/// Why no rows were asked for, or why no more were printed.
#[derive(Debug)]
enum Stopped {
    /// as a run of the program `pg_rows`
    Run(RunFault<PgInput>),
    /// the server asks for another proof of identity, by its number
    Identity(u32),
    /// the server asks for a password, and none is known
    NoPassword,
    /// the server asks for the password in clear text, over a network
    Cleartext,
    /// the server asks for so many rounds of the hash
    Rounds(u64),
    /// the server offers no SCRAM-SHA-256
    NoScram,
    /// what the server asks by SCRAM is not what it may ask
    Question,
    /// the server doesn't prove that it knows the password
    Unproved,
    /// what is to be sent is longer than a server takes
    Long,
    /// there is no connection: where, and why
    Unreached(String),
}

fn stopped_by(fault: PgFault) -> Stopped {
    Stopped::Run(match fault {
        PgFault::Server(message) => RunFault::Input(PgInput::Server(message)),
        PgFault::Damaged(place, damage) => RunFault::Input(PgInput::Damaged(place, damage)),
        PgFault::Read(failed) => RunFault::Read(failed),
        PgFault::Memory => RunFault::Memory,
    })
}

/// Sends a message by one write.
fn send(writer: &mut impl Write, message: Result<Vec<u8>, Unsent>) -> Result<(), Stopped> {
    let message = message.map_err(|why| match why {
        Unsent::Long => Stopped::Long,
        Unsent::Memory => Stopped::Run(RunFault::Memory),
    })?;
    writer
        .write_all(&message)
        .map_err(|error| Stopped::Run(RunFault::Write(error.into())))
}

/// What asks for a session, with what the variables tell it.
fn startup(place: &Place) -> Result<Vec<u8>, Unsent> {
    let mut message = startup_message(&place.user, &place.database)?;
    // The parameters end with a zero.
    message.pop();
    for (name, value) in &place.parameters {
        for text in [name, value.as_str()] {
            message.extend_from_slice(text.as_bytes());
            message.push(0);
        }
    }
    message.push(0);
    let length = u32::try_from(message.len()).or(Err(Unsent::Long))?;
    message[..4].copy_from_slice(&length.to_be_bytes());
    Ok(message)
}

/// Who proves by a password who they are.
struct Identity<'a> {
    password: Option<&'a str>,
    /// Whether the password may be sent in clear text.
    cleartext: bool,
}

/// 18 bytes that no one can guess, as text without a comma.
fn nonce() -> std::io::Result<String> {
    let mut bytes = [0; 18];
    File::open("/dev/urandom")?.read_exact(&mut bytes)?;
    Ok(bytes.iter().map(|byte| format!("{byte:02x}")).collect())
}

/// How far a log-in by SCRAM has come.
enum Login {
    /// No question was asked.
    Before,
    /// The client's own text was sent.
    Begun(String),
    /// The client has answered, and the server has to prove that it knows the password.
    Answered(Answer),
    /// Nothing is asked any more.
    Done,
}

/// Answers what a server asks for.
fn answer(
    writer: &mut impl Write,
    message: &Message,
    request: Request,
    login: Login,
    identity: &Identity,
) -> Result<Login, Stopped> {
    let password = identity.password;
    match (request, login) {
        // A server that was to prove itself, and doesn't, is none that knows the password.
        (Request::Nothing, Login::Begun(_) | Login::Answered(_)) => Err(Stopped::Unproved),
        (Request::Nothing, _) => Ok(Login::Done),
        (Request::Password, Login::Before) => {
            if !identity.cleartext {
                return Err(Stopped::Cleartext);
            }
            let password = password.ok_or(Stopped::NoPassword)?;
            send(writer, password_message(password))?;
            Ok(Login::Before)
        }
        (Request::Other(10), Login::Before) => {
            let offered = request_data(message);
            if !offered
                .split(|byte| *byte == 0)
                .any(|it| it == b"SCRAM-SHA-256")
            {
                return Err(Stopped::NoScram);
            }
            if password.is_none() {
                return Err(Stopped::NoPassword);
            }
            let own = nonce().map_err(|error| Stopped::Run(RunFault::Read(error.into())))?;
            send(writer, scram_first_message(own.as_bytes()))?;
            Ok(Login::Begun(own))
        }
        (Request::Other(11), Login::Begun(own)) => {
            let password = password.ok_or(Stopped::NoPassword)?;
            let asked = request_data(message);
            let sha = Sha::default();
            let Ok(Some(answer)) = answer_of(&sha, password.as_bytes(), own.as_bytes(), asked)
            else {
                return Err(Stopped::Question);
            };
            if let Some(rounds) = sha.too_many.get() {
                return Err(Stopped::Rounds(rounds));
            }
            send(writer, answer.message())?;
            Ok(Login::Answered(answer))
        }
        (Request::Other(12), Login::Answered(answer)) => {
            if !answer.is_proved_by(request_data(message)) {
                return Err(Stopped::Unproved);
            }
            Ok(Login::Done)
        }
        (Request::Password, _) => Err(Stopped::Unproved),
        (Request::Other(10..=12), _) => Err(Stopped::Question),
        (Request::Other(number), _) => Err(Stopped::Identity(number)),
    }
}

/// Starts a session, up to where the server is ready for a query. Nothing after that is read. The key by which its queries are cancelled.
fn start(
    reader: impl ReadByte,
    writer: &mut impl Write,
    place: &Place,
    identity: &Identity,
) -> Result<Option<CancelKey>, Stopped> {
    send(writer, startup(place))?;
    let (mut read, mut login, mut key) = (0, Login::Before, None);
    let mut messages = Messages::unbuffered(reader);
    while let Some(message) = messages.next().map_err(stopped_by)? {
        let at = read;
        read += message.bytes().len() as u64;
        let is_done = matches!(login, Login::Done);
        match (message.tag(), request_of(&message)) {
            (b'Z', _) if is_done => return Ok(key),
            (_, Some(request)) => {
                login = answer(writer, &message, request, login, identity)?;
            }
            (b'K', _) if is_done => key = cancel_key_of(&message),
            // A parameter, a notice.
            (b'S' | b'N', _) => {}
            (b'E', _) => return Err(stopped_by(PgFault::Server(message))),
            (tag, _) => return Err(stopped_by(PgFault::Damaged(at, Damage::Tag(tag)))),
        }
    }
    Err(stopped_by(PgFault::Damaged(read, Damage::Cut)))
}

/// Whether libpq tries the next server after this end of a log-in: there is no connection, it takes too long, or the server can take no session now.
fn is_for_next(stopped: &Stopped) -> bool {
    match stopped {
        Stopped::Unreached(_) => true,
        Stopped::Run(RunFault::Read(failed)) => {
            let kind = failed.io_error().map(|error| error.kind());
            matches!(kind, Some(ErrorKind::WouldBlock | ErrorKind::TimedOut))
        }
        Stopped::Run(RunFault::Input(PgInput::Server(message))) => message
            .body()
            .split(|byte| *byte == 0)
            .any(|field| field == b"C57P03"),
        _ => false,
    }
}

/// Runs over the first server that takes a session. What is told of those before it, if none does.
fn run(
    places: Vec<Place>,
    wanted: &Wanted,
    query: &str,
    output: impl Write,
    errors: &mut impl Write,
) -> Result<(), Stopped> {
    let (mut left, mut before, mut output) = (places.len(), Vec::new(), output);
    for place in places {
        left -= 1;
        match run_at(place, wanted, query, &mut output, errors) {
            Ok(done) => return done,
            Err(stopped) if left > 0 && is_for_next(&stopped) => {
                told(Err(stopped), &mut before);
            }
            Err(stopped) => {
                // Where it can't be told the status tells it.
                let _ = errors.write_all(&before);
                return Err(stopped);
            }
        }
    }
    Ok(())
}

/// Logs in at a server, sends the query, prints its rows, tells `errors` of its notices, and ends the session. An `Err` where there was no session.
fn run_at(
    place: Place,
    wanted: &Wanted,
    query: &str,
    output: impl Write,
    errors: &mut impl Write,
) -> Result<Result<(), Stopped>, Stopped> {
    let read_failed = |error: std::io::Error| Stopped::Run(RunFault::Read(error.into()));
    let socket = &Socket::open(&place).map_err(|error| {
        Stopped::Unreached(format!("{}, port {}: {error}", place.host, place.port))
    })?;
    let mut reader = Buffered::new(BufReader::new(socket));
    let mut writer = socket;
    let password = place.password();
    let identity = Identity {
        password: password.as_deref(),
        cleartext: wanted.cleartext || place.socket().is_some(),
    };
    let lent = Lent {
        reader: &mut reader,
    };
    socket.limit(place.timeout).map_err(read_failed)?;
    let key = start(lent, &mut writer, &place, &identity)?;
    socket.limit(None).map_err(read_failed)?;
    if let Some(key) = key {
        // Without it Ctrl-C ends the program.
        let _ = cancel::cancels(place, key);
    }
    if let Err(stopped) = send(&mut writer, query_message(query)) {
        return Ok(Err(stopped));
    }
    let messages = Messages::unbuffered(reader);
    let printed = print(messages, wanted, output, errors);
    // The server ends the session too where the connection is closed.
    let _ = send(&mut writer, terminate_message());
    Ok(printed.map_err(Stopped::Run))
}

/// Prints the rows that messages bring, the names of their columns, and the data of COPY.
fn print<R: ReadMessage>(
    messages: Messages<R>,
    wanted: &Wanted,
    output: impl Write,
    errors: &mut impl Write,
) -> Result<(), RunFault<PgInput>> {
    let format = Format {
        null: wanted.null.as_bytes(),
        csv: wanted.csv,
    };
    let mut output = Shared(Rc::new(RefCell::new(output)));
    let beside = Beside::new(messages, format, !wanted.rows_only, output.clone());
    let seen = beside.seen();
    let mut rows = Rows::new(Messages::unbuffered(beside));
    let printed = print_rows(&mut rows, format, &mut RowText::new(), &mut output, errors);
    let mut seen = seen.borrow_mut();
    match (seen.stopped.take(), printed) {
        (Some(why), _) => Err(why),
        (None, Err(RunFault::Input(PgInput::Damaged(place, damage)))) => {
            // The rows know nothing of what was printed beside them.
            Err(RunFault::Input(PgInput::Damaged(
                place + seen.copied,
                damage,
            )))
        }
        (None, printed) => printed,
    }
}

/// Says why no more rows were printed. The status.
fn told(stopped: Result<(), Stopped>, errors: &mut impl Write) -> u8 {
    let (status, line) = match stopped {
        Ok(()) => return 0,
        Err(Stopped::Run(fault)) => {
            return match ended(Err(fault), None, errors) {
                Ok(status) | Err(status) => status,
            };
        }
        Err(Stopped::Identity(number)) => (
            7,
            format!("the server asks for another proof of identity (request {number})"),
        ),
        Err(Stopped::NoPassword) => (
            2,
            "the server asks for a password, and neither PGPASSWORD nor ~/.pgpass has one".into(),
        ),
        Err(Stopped::Cleartext) => (
            2,
            "the server asks for the password in clear text, which is sent over a Unix socket alone, or with --cleartext-password".into(),
        ),
        Err(Stopped::Rounds(rounds)) => (
            8,
            format!("the server asks for {rounds} rounds of the hash, and {MOST_ROUNDS} are made at most"),
        ),
        Err(Stopped::NoScram) => (7, "the server offers no SCRAM-SHA-256".into()),
        Err(Stopped::Question) => (8, "the server asks by SCRAM what it may not ask".into()),
        Err(Stopped::Unproved) => (
            8,
            "the server doesn't prove that it knows the password".into(),
        ),
        Err(Stopped::Unreached(why)) => (2, why),
        Err(Stopped::Long) => (2, "the query is longer than a server takes".into()),
    };
    let _ = writeln!(errors, "{line}");
    status
}

/// Tells of a refusal. Status 2.
fn refused(why: impl std::fmt::Display) -> ExitCode {
    // Where it can't be told the status tells it.
    let _ = writeln!(stderr(), "{why}");
    ExitCode::from(2)
}

/// Prints a text. The status: 0, or 4 where that fails.
fn printed(text: &str) -> ExitCode {
    match writeln!(stdout(), "{text}").and_then(|()| stdout().flush()) {
        Ok(()) => ExitCode::SUCCESS,
        Err(_) => {
            let _ = writeln!(stderr(), "write failed");
            ExitCode::from(4)
        }
    }
}

/// The statements of standard input.
fn statements() -> Result<String, String> {
    if stdin().is_terminal() {
        return Err(USAGE.into());
    }
    let mut bytes = Vec::new();
    stdin()
        .read_to_end(&mut bytes)
        .map_err(|error| format!("standard input: {error}"))?;
    if bytes.contains(&0) {
        return Err("standard input has a byte 0".into());
    }
    String::from_utf8(bytes).map_err(|_| "standard input is no UTF-8".into())
}

fn main() -> ExitCode {
    let wanted = match asked_by(std::env::args_os().skip(1)) {
        Ok(Asked::Help) => return printed(USAGE),
        Ok(Asked::Version) => return printed(concat!("pg_login ", env!("CARGO_PKG_VERSION"))),
        Ok(Asked::Rows(wanted)) => wanted,
        Err(why) => return refused(format!("{why}\n{USAGE}")),
    };
    let places = match Place::of_variables(std::env::vars_os()) {
        Ok(places) => places,
        Err(why) => return refused(why),
    };
    let query = match wanted.query.clone().map_or_else(statements, Ok) {
        Ok(query) => query,
        Err(why) => return refused(why),
    };
    let mut errors = stderr();
    let stopped = run(places, &wanted, &query, stdout().lock(), &mut errors);
    ExitCode::from(told(stopped, &mut errors))
}

#[cfg(test)]
mod tests;
