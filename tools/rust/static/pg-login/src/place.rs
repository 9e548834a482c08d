//! Where the server is, and who asks, by the variables and the file that libpq reads.
use std::ffi::OsString;
use std::fs;
use std::io::{Write, stderr};
use std::net::IpAddr;
use std::os::unix::fs::PermissionsExt;
use std::path::PathBuf;
use std::process::Command;
use std::time::Duration;

/// A server, a database and a user.
#[derive(Clone, Debug, Default)]
pub struct Place {
    pub host: String,
    /// The address of the host, where it is said.
    pub address: Option<IpAddr>,
    pub port: u16,
    pub user: String,
    pub database: String,
    /// How long the log-in may take.
    pub timeout: Option<Duration>,
    /// What the session is told at its start, by name.
    pub parameters: Vec<(&'static str, String)>,
    password: Option<String>,
    pass_file: Option<PathBuf>,
}

/// What variables say, as lists, of the servers that are tried in order.
#[derive(Debug, Default)]
struct Servers {
    hosts: Option<String>,
    addresses: Option<String>,
    ports: Option<String>,
}

/// What a session is told by a variable: the variable, and the name there.
const PARAMETERS: [(&str, &str); 5] = [
    ("PGAPPNAME", "application_name"),
    ("PGOPTIONS", "options"),
    ("PGDATESTYLE", "datestyle"),
    ("PGTZ", "timezone"),
    ("PGGEQO", "geqo"),
];
/// Variables that change nothing at these values, at which they ask for what is done in any case.
const AS_IT_IS: [(&str, &[&str]); 8] = [
    ("PGSSLMODE", &["disable", "allow", "prefer"]),
    ("PGGSSENCMODE", &["disable", "prefer"]),
    ("PGCHANNELBINDING", &["disable", "prefer"]),
    ("PGSSLNEGOTIATION", &["postgres"]),
    ("PGSSLCOMPRESSION", &["0"]),
    ("PGTARGETSESSIONATTRS", &["any"]),
    ("PGLOADBALANCEHOSTS", &["disable"]),
    ("PGCLIENTENCODING", &["UTF8", "UTF-8", "utf8", "utf-8"]),
];
/// The server's own, which no client reads.
const OF_THE_SERVER: [&str; 2] = ["PGDATA", "PGCTLTIMEOUT"];
const SOCKETS: &str = "/var/run/postgresql";

/// Whether libpq may read a variable of this name.
fn is_of_libpq(name: &str) -> bool {
    let mut rest = name.strip_prefix("PG").unwrap_or("").bytes();
    matches!(rest.next(), Some(b'A'..=b'Z')) && !OF_THE_SERVER.contains(&name)
}

/// Who runs the program, as `id -un` says.
fn system_user() -> Option<String> {
    let told = Command::new("id").arg("-un").output().ok()?;
    let name = String::from_utf8(told.stdout).ok()?;
    Some(name.trim_end().to_string()).filter(|name| !name.is_empty())
}

/// What a list says of the server at a place: none, where that is empty. One port is that of all.
fn at(list: &Option<String>, place: usize) -> Option<&str> {
    let mut items: Vec<&str> = list.as_deref()?.split(',').collect();
    if items.len() == 1 {
        items.resize(place + 1, items[0]);
    }
    items.get(place).copied().filter(|item| !item.is_empty())
}

impl Servers {
    /// How many there are, as libpq counts them: by the addresses, else by the hosts.
    fn count(&self) -> Result<usize, String> {
        let count_of = |list: &Option<String>| list.as_ref().map(|list| list.split(',').count());
        let (hosts, addresses) = (count_of(&self.hosts), count_of(&self.addresses));
        let count = addresses.or(hosts).unwrap_or(1);
        for (name, counted, may_be_one) in [
            ("PGHOST", hosts, false),
            ("PGPORT", count_of(&self.ports), true),
        ] {
            if let Some(counted) = counted.filter(|n| *n != count && !(may_be_one && *n == 1)) {
                return Err(format!("{name} has {counted} items, for {count} servers"));
            }
        }
        Ok(count)
    }

    /// The server at a place.
    fn put(&self, index: usize, place: &mut Place) -> Result<(), String> {
        if let Some(address) = at(&self.addresses, index) {
            let address = address.parse();
            place.address = Some(address.or_else(|_| refused("PGHOSTADDR", &self.addresses))?);
        }
        let host = at(&self.hosts, index);
        if host.is_some_and(|host| host.starts_with('@')) {
            return refused("PGHOST", &self.hosts);
        }
        place.host = match (host, place.address) {
            (Some(host), _) => host.into(),
            (None, Some(address)) => address.to_string(),
            (None, None) => SOCKETS.into(),
        };
        place.port = match at(&self.ports, index).map_or(Ok(5432), str::parse) {
            Ok(port) if port > 0 => port,
            _ => return refused("PGPORT", &self.ports),
        };
        Ok(())
    }
}

/// That a variable isn't honoured at what it says.
fn refused<T>(name: &str, value: &Option<String>) -> Result<T, String> {
    let value = value.as_deref().unwrap_or_default();
    Err(format!("{name} is {value:?}, which this client doesn't do"))
}

impl Place {
    /// Those of the variables, at each of the servers, in their order: by default the server's Unix socket, port 5432, the user who runs the program, and the database of that name. A variable that libpq reads, and that isn't honoured here, is refused; so is one with a value that isn't known. Why there is no place.
    pub fn of_variables(
        variables: impl Iterator<Item = (OsString, OsString)>,
    ) -> Result<Vec<Place>, String> {
        let (mut place, mut servers) = (Place::default(), Servers::default());
        for (name, value) in variables.filter(|(_, value)| !value.is_empty()) {
            if name == "HOME" && place.pass_file.is_none() {
                place.pass_file = Some(PathBuf::from(value).join(".pgpass"));
            } else if let Some(name) = name.to_str().filter(|name| is_of_libpq(name)) {
                let value = value
                    .into_string()
                    .map_err(|_| format!("{name} is no UTF-8"))?;
                match name {
                    "PGHOST" => servers.hosts = Some(value),
                    "PGHOSTADDR" => servers.addresses = Some(value),
                    "PGPORT" => servers.ports = Some(value),
                    _ => place.take(name, value)?,
                }
            }
        }
        if place.user.is_empty() {
            place.user = system_user().ok_or("PGUSER isn't set, and who runs it isn't known")?;
        }
        if place.database.is_empty() {
            place.database = place.user.clone();
        }
        if !place
            .parameters
            .iter()
            .any(|(name, _)| *name == "application_name")
        {
            place
                .parameters
                .push(("application_name", "pg_login".into()));
        }
        let mut places = vec![place; servers.count()?];
        for (index, place) in places.iter_mut().enumerate() {
            servers.put(index, place)?;
        }
        Ok(places)
    }

    /// Takes what a variable says.
    fn take(&mut self, name: &str, value: String) -> Result<(), String> {
        match name {
            "PGUSER" => self.user = value,
            "PGDATABASE" => self.database = value,
            "PGPASSWORD" => self.password = Some(value),
            "PGPASSFILE" => self.pass_file = Some(value.into()),
            "PGCONNECT_TIMEOUT" => {
                let Ok(seconds) = value.parse::<i32>() else {
                    return refused(name, &Some(value));
                };
                // As libpq: none at 0 or below, and 2 seconds at least.
                self.timeout = u64::try_from(seconds)
                    .ok()
                    .filter(|seconds| *seconds > 0)
                    .map(|seconds| Duration::from_secs(seconds.max(2)));
            }
            _ => {
                if let Some((_, told)) = PARAMETERS.iter().find(|(variable, _)| *variable == name) {
                    let is_default = value.eq_ignore_ascii_case("default")
                        && !["PGAPPNAME", "PGOPTIONS"].contains(&name);
                    if !is_default {
                        self.parameters.push((told, value));
                    }
                } else if !AS_IT_IS
                    .iter()
                    .any(|(variable, values)| *variable == name && values.contains(&&*value))
                {
                    return refused(name, &Some(value));
                }
            }
        }
        Ok(())
    }

    /// The server's Unix socket, where the host is a folder.
    pub fn socket(&self) -> Option<String> {
        let is_local = self.address.is_none() && self.host.starts_with('/');
        is_local.then(|| format!("{}/.s.PGSQL.{}", self.host, self.port))
    }

    /// The password of `PGPASSWORD`, or of the first line of `~/.pgpass` (or `PGPASSFILE`) that fits. A file that others may read is not read, and a line that is no UTF-8 is passed over.
    pub fn password(&self) -> Option<String> {
        if self.password.is_some() {
            return self.password.clone();
        }
        let path = self.pass_file.as_ref()?;
        let found = fs::metadata(path).ok()?;
        if !found.is_file() {
            return None;
        }
        if found.permissions().mode() & 0o077 != 0 {
            let path = path.display();
            let _ = writeln!(stderr(), "{path}: others may read it, so it isn't read");
            return None;
        }
        self.password_in(&fs::read(path).ok()?)
    }

    /// The password of the first line that fits.
    fn password_in(&self, file: &[u8]) -> Option<String> {
        let lines = file.split(|byte| *byte == b'\n');
        lines
            .filter_map(|line| std::str::from_utf8(line).ok())
            .find_map(|line| self.password_of(line.strip_suffix('\r').unwrap_or(line)))
            .filter(|password| !password.is_empty())
    }

    /// The password of a line `host:port:database:user:password`, if it fits. A star fits anything; a colon and a backslash have a backslash before them.
    fn password_of(&self, line: &str) -> Option<String> {
        let fields = fields_of(line);
        let [host, port, database, user, password, ..] = &fields[..] else {
            return None;
        };
        let own_host = match self.host.as_str() {
            SOCKETS => "localhost",
            host => host,
        };
        let fits = |field: &str, own: &str| field == "*" || field == own;
        let is_own = !line.starts_with('#')
            && fits(host, own_host)
            && fits(port, &self.port.to_string())
            && fits(database, &self.database)
            && fits(user, &self.user);
        is_own.then(|| password.clone())
    }
}

fn fields_of(line: &str) -> Vec<String> {
    let mut fields = vec![String::new()];
    let mut letters = line.chars();
    while let Some(letter) = letters.next() {
        let last = fields.last_mut().expect("there is a field");
        match letter {
            ':' => fields.push(String::new()),
            '\\' => last.extend(letters.next()),
            _ => last.push(letter),
        }
    }
    fields
}

#[cfg(test)]
mod tests {
    use super::*;
    use std::os::unix::ffi::OsStringExt;

    fn place(host: &str) -> Place {
        Place {
            host: host.into(),
            port: 5432,
            user: "me".into(),
            database: "db".into(),
            ..Place::default()
        }
    }

    fn all_of(variables: &[(&str, &str)]) -> Result<Vec<Place>, String> {
        let pairs = variables
            .iter()
            .map(|(name, value)| (name.into(), value.into()));
        Place::of_variables(pairs)
    }

    /// The one place.
    fn of(variables: &[(&str, &str)]) -> Result<Place, String> {
        let mut places = all_of(variables)?;
        assert_eq!(places.len(), 1);
        Ok(places.remove(0))
    }

    #[test]
    fn several_servers_stand_in_their_order() {
        let user = ("PGUSER", "me");
        let found = |variables: &[(&str, &str)]| {
            let places = all_of(&[&[user], variables].concat())?;
            let told = places
                .iter()
                .map(|it| format!("{} {:?} {}", it.host, it.address, it.port));
            Ok::<_, String>(told.collect::<Vec<_>>())
        };
        let two = found(&[("PGHOST", "a,/b"), ("PGPORT", "6,7")]).unwrap();
        assert_eq!(two, ["a None 6", "/b None 7"]);
        let one_port = found(&[("PGHOST", "a,"), ("PGPORT", "6")]).unwrap();
        assert_eq!(one_port, ["a None 6", "/var/run/postgresql None 6"]);
        let default = found(&[("PGHOST", "a,b"), ("PGPORT", ",7")]).unwrap();
        assert_eq!(default, ["a None 5432", "b None 7"]);
        let addresses = found(&[("PGHOSTADDR", "::1,127.0.0.1")]).unwrap();
        assert_eq!(
            addresses,
            ["::1 Some(::1) 5432", "127.0.0.1 Some(127.0.0.1) 5432"]
        );
        for (variables, why) in [
            (
                [("PGHOST", "a,b"), ("PGPORT", "1,2,3")],
                "PGPORT has 3 items, for 2 servers",
            ),
            (
                [("PGHOST", "a"), ("PGHOSTADDR", "::1,::1")],
                "PGHOST has 1 items, for 2 servers",
            ),
        ] {
            assert_eq!(found(&variables), Err(why.into()));
        }
    }

    #[test]
    fn a_line_fits_by_each_field() {
        let own = place("example.org");
        for (line, password) in [
            ("example.org:5432:db:me:x", Some("x")),
            ("*:*:*:*:x:y", Some("x")),
            ("*:*:*:me:a\\:b\\\\c", Some("a:b\\c")),
            ("other:5432:db:me:x", None),
            ("*:5433:db:me:x", None),
            ("*:*:*:me", None),
            ("#*:*:*:*:x", None),
            ("", None),
        ] {
            assert_eq!(own.password_of(line).as_deref(), password, "{line}");
        }
        let local = place(SOCKETS);
        assert_eq!(local.password_of("localhost:*:*:*:x").as_deref(), Some("x"));
    }

    #[test]
    fn a_line_that_is_no_text_is_passed_over() {
        let file = b"*:*:*:*:\xff\r\n\n*:*:*:*:x\r\n*:*:*:*:y";
        assert_eq!(place("a").password_in(file).as_deref(), Some("x"));
    }

    #[test]
    fn each_variable_is_honoured_or_refused_by_its_name() {
        let user = ("PGUSER", "me");
        let found = of(&[
            user,
            ("PGHOST", "example.org"),
            ("PGHOSTADDR", "::1"),
            ("PGPORT", "6432"),
            ("PGCONNECT_TIMEOUT", "1"),
            ("PGOPTIONS", "-c a=b"),
            ("PGTZ", "default"),
            ("PGSSLMODE", "prefer"),
            ("PGSERVICE", ""),
            ("PG_COLOR", "always"),
            ("PGDATA", "/data"),
        ])
        .unwrap();
        assert_eq!((found.host.as_str(), found.port), ("example.org", 6432));
        assert_eq!(found.address, Some("::1".parse().unwrap()));
        assert_eq!(found.database, "me");
        assert_eq!(found.timeout, Some(Duration::from_secs(2)));
        assert_eq!(found.socket(), None);
        let options = ("options", "-c a=b".to_string());
        let application = ("application_name", "pg_login".to_string());
        assert_eq!(found.parameters, [options, application]);
        let local = of(&[user]).unwrap();
        assert_eq!(local.socket().unwrap(), "/var/run/postgresql/.s.PGSQL.5432");
        for (name, value) in [
            ("PGHOST", "@a"),
            ("PGHOSTADDR", "example.org"),
            ("PGPORT", "0"),
            ("PGCONNECT_TIMEOUT", "long"),
            ("PGSERVICE", "a"),
            ("PGSERVICEFILE", "a"),
            ("PGSYSCONFDIR", "/a"),
            ("PGSSLMODE", "require"),
            ("PGSSLROOTCERT", "a"),
            ("PGREQUIREAUTH", "none"),
            ("PGREQUIREPEER", "a"),
            ("PGGSSENCMODE", "require"),
            ("PGCHANNELBINDING", "require"),
            ("PGTARGETSESSIONATTRS", "read-write"),
            ("PGCLIENTENCODING", "LATIN1"),
            ("PGCLUSTER", "15/main"),
            ("PGNEWNAME", "a"),
        ] {
            let why = of(&[user, (name, value)]).unwrap_err();
            assert!(why.starts_with(&format!("{name} is ")), "{why}");
        }
        let bytes = (OsString::from("PGHOST"), OsString::from_vec(vec![255]));
        let why = Place::of_variables([bytes].into_iter()).unwrap_err();
        assert_eq!(why, "PGHOST is no UTF-8");
    }
}
