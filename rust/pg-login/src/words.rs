//! What the program's words ask for.
use std::ffi::OsString;

pub const USAGE: &str = "usage: pg_login [--csv] [--null TEXT] [-t] [--cleartext-password] [QUERY]
       pg_login -h | --help
       pg_login --version
Logs in at a PostgreSQL server, without TLS, and prints what QUERY returns as
psql -q -A does, without the count of rows, or with --csv as psql -q --csv, each
row as it comes. Without a QUERY, or where it is -, the statements are read from
standard input, and sent as one.
  --null TEXT           what is printed for a NULL
  -t, --tuples-only     without the names of the columns
  --cleartext-password  sends the password in clear also over the network
PGHOST, PGPORT, PGUSER, PGDATABASE, PGPASSWORD and ~/.pgpass say where and who.
A QUERY that begins with - is given after --.";

/// What the words ask for.
#[derive(Debug, PartialEq, Eq)]
pub enum Asked {
    /// The usage text.
    Help,
    /// The version.
    Version,
    /// The rows of a query.
    Rows(Wanted),
}

/// A query, and how its rows are printed.
#[derive(Debug, Default, PartialEq, Eq)]
pub struct Wanted {
    pub csv: bool,
    pub null: String,
    pub rows_only: bool,
    pub cleartext: bool,
    /// None is that of standard input.
    pub query: Option<String>,
}

/// What words ask for, without the program's name; or what is told of the first that asks for nothing that there is.
pub fn asked_by(words: impl Iterator<Item = OsString>) -> Result<Asked, String> {
    let mut words = words.map(|word| {
        word.into_string()
            .map_err(|word| format!("{word:?} is no UTF-8"))
    });
    let mut wanted = Wanted::default();
    let (mut options, mut has_query) = (true, false);
    while let Some(word) = words.next().transpose()? {
        match word.as_str() {
            "-h" | "--help" if options => return Ok(Asked::Help),
            "--version" if options => return Ok(Asked::Version),
            "--csv" if options => wanted.csv = true,
            "-t" | "--tuples-only" if options => wanted.rows_only = true,
            "--cleartext-password" if options => wanted.cleartext = true,
            "--null" if options => {
                wanted.null = words
                    .next()
                    .transpose()?
                    .ok_or("--null: a TEXT is missing")?;
            }
            "--" if options => options = false,
            text if options && text.starts_with('-') && text != "-" => {
                return Err(format!("{text}: unexpected"));
            }
            text if has_query => return Err(format!("{text}: unexpected")),
            text => {
                has_query = true;
                wanted.query = (text != "-" || !options).then_some(word);
            }
        }
    }
    Ok(Asked::Rows(wanted))
}

#[cfg(test)]
mod tests {
    use super::*;
    use std::os::unix::ffi::OsStringExt;

    fn of(words: &[&str]) -> Result<Asked, String> {
        asked_by(words.iter().map(OsString::from))
    }

    #[test]
    fn each_word_asks_for_something_or_is_refused() {
        assert_eq!(of(&["--csv", "-h"]), Ok(Asked::Help));
        assert_eq!(of(&["--version"]), Ok(Asked::Version));
        let all = [
            "--csv",
            "--null",
            "-",
            "-t",
            "--cleartext-password",
            "--",
            "-1",
        ];
        let wanted = Wanted {
            csv: true,
            null: "-".into(),
            rows_only: true,
            cleartext: true,
            query: Some("-1".into()),
        };
        assert_eq!(of(&all), Ok(Asked::Rows(wanted)));
        assert_eq!(of(&[]), Ok(Asked::Rows(Wanted::default())));
        assert_eq!(of(&["-"]), Ok(Asked::Rows(Wanted::default())));
        assert_eq!(of(&["-x"]), Err("-x: unexpected".into()));
        assert_eq!(of(&["a", "b"]), Err("b: unexpected".into()));
        assert_eq!(of(&["-", "b"]), Err("b: unexpected".into()));
        assert_eq!(of(&["--null"]), Err("--null: a TEXT is missing".into()));
        let bytes = OsString::from_vec(b"a\xff".to_vec());
        assert_eq!(
            asked_by([bytes].into_iter()),
            Err("\"a\\xFF\" is no UTF-8".into())
        );
    }
}
