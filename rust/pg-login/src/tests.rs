//! Sessions over servers of these tests.
use super::*;
use std::net::TcpListener;
use std::thread;

fn message(tag: u8, body: &[u8]) -> Vec<u8> {
    let length = u32::try_from(body.len() + 4).unwrap().to_be_bytes();
    [&[tag], &length[..], body].concat()
}

/// A server of one session, which asks for no password, and answers a query so. Its port.
fn server(begun: Vec<u8>, answer: Vec<u8>) -> String {
    let listener = TcpListener::bind("127.0.0.1:0").unwrap();
    let port = listener.local_addr().unwrap().port();
    thread::spawn(move || {
        let (mut connection, _) = listener.accept().unwrap();
        for sent in [begun, answer] {
            // A client that asks for nothing more closes it.
            let _ = connection.read(&mut [0; 1000]);
            let _ = connection.write_all(&sent);
        }
    });
    port.to_string()
}

fn begun() -> Vec<u8> {
    [message(b'R', &[0; 4]), message(b'Z', b"I")].concat()
}

/// The status, what is printed and what is told, over servers at these ports.
fn run_over(ports: &str, words: &[&str]) -> (u8, String, String) {
    let hosts = vec!["127.0.0.1"; ports.split(',').count()].join(",");
    let variables = [("PGUSER", "me"), ("PGHOST", &hosts), ("PGPORT", ports)];
    let places = Place::of_variables(
        variables
            .iter()
            .map(|(name, value)| (name.into(), value.into())),
    );
    let Ok(Asked::Rows(wanted)) = asked_by(words.iter().map(Into::into)) else {
        panic!("the words ask for rows");
    };
    let (mut output, mut errors) = (Vec::new(), Vec::new());
    let stopped = run(places.unwrap(), &wanted, "query", &mut output, &mut errors);
    let status = told(stopped, &mut errors);
    let text = |bytes| String::from_utf8(bytes).unwrap();
    (status, text(output), text(errors))
}

fn found(status: u8, output: &str, told: &str) -> (u8, String, String) {
    (status, output.into(), told.into())
}

/// A description of the column `a`, a row, and that the statement is done.
fn row() -> Vec<u8> {
    let column = [&b"\0\x01a\0"[..], &[0; 18]].concat();
    let cell = b"\0\x01\0\0\0\x011";
    [
        message(b'T', &column),
        message(b'D', cell),
        message(b'C', b"SELECT 1\0"),
    ]
    .concat()
}

fn copied(messages: &[(u8, &[u8])]) -> Vec<u8> {
    let all = messages.iter().map(|(tag, body)| message(*tag, body));
    all.collect::<Vec<_>>().concat()
}

const OUT: (u8, &[u8]) = (b'H', b"\0\0\x01\0\0");
const DATA: (u8, &[u8]) = (b'd', b"x\t\\N\n");
const READY: (u8, &[u8]) = (b'Z', b"I");

#[test]
fn the_data_of_copy_stands_between_rows() {
    let copy = copied(&[OUT, DATA, DATA, (b'c', b""), (b'C', b"COPY 2\0")]);
    let answer = [row(), copy, row(), copied(&[READY])].concat();
    let port = server(begun(), answer.clone());
    let all = "a\n1\nx\t\\N\nx\t\\N\na\n1\n";
    assert_eq!(run_over(&port, &["--csv"]), found(0, all, ""));
    let port = server(begun(), answer);
    let rows = "1\nx\t\\N\nx\t\\N\n1\n";
    assert_eq!(run_over(&port, &["-t"]), found(0, rows, ""));
}

#[test]
fn a_copy_is_told_where_it_ends_otherwise() {
    let error = (b'E', &b"SERROR\0C22012\0Mdivision by zero\0\0"[..]);
    let row = (b'D', &b"\0\0"[..]);
    for (messages, status, output, told) in [
        (
            &[OUT, DATA, error, READY][..],
            1,
            "x\t\\N\n",
            "ERROR:  22012: division by zero\n",
        ),
        (
            &[OUT, DATA, row],
            5,
            "x\t\\N\n",
            "byte 20: a message has the unexpected tag 68\n",
        ),
        (
            &[OUT, DATA, (b'c', b""), (b'x', b"")],
            5,
            "x\t\\N\n",
            "byte 25: a message has the unexpected tag 120\n",
        ),
        (
            &[OUT, DATA],
            6,
            "x\t\\N\n",
            "byte 20: the connection ended within a message\n",
        ),
        (&[DATA], 7, "", "byte 0: COPY isn't read\n"),
        (
            &[(b'G', b"\0\0\x01\0\0")],
            7,
            "",
            "byte 0: COPY isn't read\n",
        ),
    ] {
        let port = server(begun(), copied(messages));
        assert_eq!(run_over(&port, &["-t"]), found(status, output, told));
    }
}

#[test]
fn the_next_server_is_tried() {
    let answer = || [row(), copied(&[READY])].concat();
    let shut = TcpListener::bind("127.0.0.1:0").unwrap();
    let none = shut.local_addr().unwrap().port();
    drop(shut);
    let starting = || message(b'E', b"SFATAL\0C57P03\0Mit is starting up\0\0");
    let refusing = || message(b'E', b"SFATAL\0C28P01\0Mno such user\0\0");
    let ports = format!(
        "{none},{},{}",
        server(starting(), vec![]),
        server(begun(), answer())
    );
    assert_eq!(run_over(&ports, &["-t"]), found(0, "1\n", ""));
    let ports = format!("{none},{}", server(refusing(), vec![]));
    let gone = format!("127.0.0.1, port {none}: Connection refused (os error 111)\n");
    let told = format!("{gone}FATAL:  28P01: no such user\n");
    assert_eq!(run_over(&ports, &["-t"]), found(1, "", &told));
    let ports = format!("{},{none}", server(refusing(), vec![]));
    let told = "FATAL:  28P01: no such user\n";
    assert_eq!(run_over(&ports, &["-t"]), found(1, "", told));
    let ports = format!("{none},{none}");
    assert_eq!(run_over(&ports, &["-t"]), found(2, "", &gone.repeat(2)));
}
