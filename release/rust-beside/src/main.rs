//! Prints what each call of fallible-itertools makes of rows of SQLite and PostgreSQL and of unit headers.
//!
//!     rust-beside [PORT]
//!
//! PORT is that of a PostgreSQL server on 127.0.0.1, with the feature `postgres`.
use fallible_iterator::{convert, FallibleIterator};
use fallible_itertools::{Either, FallibleItertools, FoldWhile, PeekingNext};

mod calls;

const QUERIES: [(&str, &str); 2] = [
    ("good", "SELECT * FROM (VALUES (7), (7), (15), (3), (9)) AS t"),
    ("failing", "SELECT * FROM (VALUES (7), (7), (15), (NULL), (9)) AS t"),
];

fn of_sqlite(e: rusqlite::Error) -> String {
    e.to_string()
}

fn sqlite() -> rusqlite::Result<()> {
    let db = rusqlite::Connection::open_in_memory()?;
    for (name, query) in QUERIES {
        let mut rows = db.prepare(query)?;
        calls!(format!("rusqlite, {name}"), of_sqlite, rows.query([])?.map(|row| row.get::<_, i64>(0)));
    }
    Ok(())
}

#[cfg(feature = "postgres")]
fn of_postgres(e: postgres::Error) -> String {
    e.to_string()
}

#[cfg(feature = "postgres")]
fn server(port: &str) -> Result<(), postgres::Error> {
    let mut client = postgres::Client::connect(&format!("host=127.0.0.1 port={port} user=postgres"), postgres::NoTls)?;
    for (name, query) in QUERIES {
        calls!(
            format!("postgres, {name}"),
            of_postgres,
            client.query_raw(query, std::iter::empty::<i32>())?.map(|row| row.try_get::<_, i32>(0).map(i64::from))
        );
    }
    Ok(())
}

/// Unit headers of DWARF 4, of whose entries there are so many bytes: where one is below 0 the section ends within it.
fn units(lengths: [i32; 5]) -> Vec<u8> {
    let mut section = Vec::new();
    for length in lengths {
        section.extend((7 + length.max(0) as u32).to_le_bytes());
        section.extend([4, 0, 0, 0, 0, 0, 8]);
        section.resize(section.len() + length.max(0) as usize, 0);
        if length < 0 {
            section.truncate(section.len() - 3);
            break;
        }
    }
    section
}

fn of_gimli(e: gimli::Error) -> String {
    e.to_string()
}

fn headers() {
    for (name, lengths) in [("good", [7, 7, 15, 3, 9]), ("failing", [7, 7, 15, -1, 9])] {
        let section = units(lengths);
        let info = gimli::DebugInfo::new(&section, gimli::LittleEndian);
        calls!(
            format!("gimli, {name}"),
            of_gimli,
            FallibleIterator::map(info.units(), |unit| Ok(unit.unit_length() as i64 - 7))
        );
    }
}

fn main() -> Result<(), Box<dyn std::error::Error>> {
    sqlite()?;
    headers();
    #[cfg(feature = "postgres")]
    if let Some(port) = std::env::args().nth(1) {
        server(&port)?;
    }
    Ok(())
}
