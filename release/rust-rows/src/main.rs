//! Chains over the rows of a PostgreSQL server, drawn by `query_raw`.
//!
//! Of the three queries one lists 20 numbers, one none, and one fails at its seventh row. For each chain and query a line
//! says what the chain returned, or the failure by its SQLSTATE, and which numbers were drawn.
//!
//!     rust-rows PORT
use fallible_iterator::{convert, FallibleIterator};
use postgres::{Client, Error, NoTls};
use std::collections::{BTreeMap, BTreeSet, VecDeque};

const QUERIES: [(&str, &str); 3] = [
    ("twenty", "SELECT n FROM generate_series(1, 20) n"),
    ("none", "SELECT n FROM generate_series(1, 0) n"),
    (
        "failing",
        "SELECT n + 0 / (n - 7) FROM generate_series(1, 20) n",
    ),
];

/// The numbers of a query's rows, each of which is put into `drawn`.
fn numbers<'a>(
    client: &'a mut Client,
    query: &str,
    drawn: &'a mut Vec<i32>,
) -> Result<impl FallibleIterator<Item = i32, Error = Error> + 'a, Error> {
    let rows = client.query_raw(query, std::iter::empty::<i32>())?;
    Ok(rows.map(|row| row.try_get(0)).inspect(|number| {
        drawn.push(*number);
        Ok(())
    }))
}

/// Four numbers that don't fail.
fn four() -> impl FallibleIterator<Item = i32, Error = Error> {
    convert([1, 2, 4, 3].into_iter().map(Ok))
}

/// A failure of the server's.
fn shown(error: Error) -> String {
    error
        .code()
        .map_or(error.to_string(), |state| state.code().to_string())
}

type Chain = fn(&mut Client, &str, &mut Vec<i32>) -> Result<String, Error>;

/// A list of chains by their texts. Each gets the numbers of a query.
macro_rules! chains {
    ($(|$rows:ident| $chain:expr;)*) => {
        [$((stringify!($chain), (|client, query, drawn| {
            #[allow(unused_mut)]
            let mut $rows = numbers(client, query, drawn)?;
            Ok(format!("{:?}", $chain))
        }) as Chain)),*]
    };
}

/// Chains that end in a value.
fn drains() -> Vec<(&'static str, Chain)> {
    chains! {
        |rows| rows.count()?;
        |rows| rows.last()?;
        |rows| rows.nth(4)?;
        |rows| rows.nth(40)?;
        |rows| rows.all(|n| Ok(n < 6))?;
        |rows| rows.any(|n| Ok(n > 6))?;
        |rows| rows.find(|n| Ok(*n > 3))?;
        |rows| rows.find_map(|n| Ok((n > 8).then_some(n * 10)))?;
        |rows| rows.position(|n| Ok(n == 12))?;
        |rows| rows.min()?;
        |rows| rows.max()?;
        |rows| rows.min_by_key(|n| Ok((n % 5, *n)))?;
        |rows| rows.max_by_key(|n| Ok(n % 5))?;
        |rows| rows.min_by(|a, b| Ok(b.cmp(a)))?;
        |rows| rows.max_by(|a, b| Ok((a % 7).cmp(&(b % 7))))?;
        |rows| rows.fold(0i64, |sum, n| Ok(sum * 3 + i64::from(n)))?;
        |rows| rows.try_fold(0, |sum, n| Ok::<_, Error>(sum + n))?;
        |rows| rows.for_each(|_| Ok(()))?;
        |rows| rows.cmp(four())?;
        |rows| rows.partial_cmp(four())?;
        |rows| rows.eq(four())?;
        |rows| rows.ne(four())?;
        |rows| (rows.lt(four())?, four().le(four())?, four().gt(four())?, four().ge(four())?);
        |rows| rows.collect::<Vec<_>>()?;
        |rows| rows.collect::<VecDeque<_>>()?;
        |rows| rows.map(|n| Ok(n % 4)).collect::<BTreeSet<_>>()?;
        |rows| rows.map(|n| Ok((n % 4, n))).collect::<BTreeMap<_, _>>()?;
        |rows| rows.partition::<Vec<_>, _>(|n| Ok(n % 3 == 0))?;
        |rows| rows.map(|n| Ok((n, -n))).unzip::<_, _, Vec<_>, Vec<_>>()?;
        |rows| rows.iterator().collect::<Result<Vec<_>, _>>()?;
        |rows| rows.iterator().map(|n| n.map_err(shown)).collect::<Vec<_>>();
        |rows| (rows.next()?, rows.by_ref().take(2).collect::<Vec<_>>()?, rows.count()?);
    }
    .into()
}

/// Chains of adapters.
fn adapters() -> Vec<(&'static str, Chain)> {
    chains! {
        |rows| rows.map(|n| Ok(n * n)).collect::<Vec<_>>()?;
        |rows| rows.filter(|n| Ok(n % 3 != 0)).collect::<Vec<_>>()?;
        |rows| rows.filter_map(|n| Ok((n % 2 == 0).then_some(n / 2))).collect::<Vec<_>>()?;
        |rows| rows.enumerate().map(|(at, n)| Ok(at as i32 * 100 + n)).collect::<Vec<_>>()?;
        |rows| rows.zip(four()).collect::<Vec<_>>()?;
        |rows| four().zip(rows).collect::<Vec<_>>()?;
        |rows| rows.chain(four()).collect::<Vec<_>>()?;
        |rows| four().chain(rows).collect::<Vec<_>>()?;
        |rows| rows.take_while(|n| Ok(*n < 5)).collect::<Vec<_>>()?;
        |rows| rows.skip_while(|n| Ok(*n < 5)).collect::<Vec<_>>()?;
        |rows| rows.take(6).collect::<Vec<_>>()?;
        |rows| rows.take(7).collect::<Vec<_>>()?;
        |rows| rows.skip(3).collect::<Vec<_>>()?;
        |rows| rows.skip(3).take(2).collect::<Vec<_>>()?;
        |rows| rows.step_by(3).collect::<Vec<_>>()?;
        |rows| rows.step_by(3).take(2).collect::<Vec<_>>()?;
        |rows| rows.fuse().collect::<Vec<_>>()?;
        |rows| rows.map_err(shown).map(|n| Ok(n + 1)).collect::<Vec<_>>();
        |rows| rows.scan(0, |sum, n| { *sum += n; Ok((*sum < 60).then_some(*sum)) }).collect::<Vec<_>>()?;
        |rows| rows.flat_map(|n| Ok(convert((0..n % 3).map(Ok)))).collect::<Vec<_>>()?;
        |rows| rows.map(|n| Ok(convert((n..n + 2).map(Ok)))).flatten().count()?;
        |rows| { let mut rows = rows.peekable(); (rows.peek()?.copied(), rows.next()?, rows.count()?) };
        |rows| { let mut rows = rows.fuse().peekable(); (rows.next_if(|n| *n < 2)?, rows.next_if(|n| *n < 2)?, rows.next()?) };
        |rows| rows.filter(|n| Ok(n % 2 == 1)).map(|n| Ok(n * 7 % 10)).skip_while(|n| Ok(*n < 8)).enumerate().last()?;
        |rows| rows.chain(four()).filter(|n| Ok(*n != 3)).zip(four()).map(|(a, b)| Ok(a * b)).fold(1, |p, n| Ok(p * n))?;
        |rows| rows.take_while(|n| Ok(*n < 15)).skip(2).step_by(2).map(|n| Ok(n + 1)).max()?;
    }
    .into()
}

fn main() -> Result<(), Error> {
    let port = std::env::args().nth(1).expect("the port of a server");
    let mut client = Client::connect(&format!("host=127.0.0.1 port={port} user=postgres"), NoTls)?;
    for (text, chain) in drains().into_iter().chain(adapters()) {
        for (name, query) in QUERIES {
            let mut drawn = Vec::new();
            let outcome = chain(&mut client, query, &mut drawn).unwrap_or_else(shown);
            println!(
                "{} over {name}: {outcome}, drawn {drawn:?}",
                text.replace('\n', " ")
            );
        }
    }
    Ok(())
}
