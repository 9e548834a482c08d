//! A source of one's own that writes more than `next`: which of its calls each call over it makes, beside those that the
//! original 0.3.0 makes.
use fallible_iterator::{DoubleEndedFallibleIterator, FallibleIterator};
use std::cell::Cell;
use std::rc::Rc;

const NAMES: [&str; 9] = [
    "next",
    "nth",
    "try_fold",
    "count",
    "last",
    "find",
    "fold",
    "next_back",
    "try_rfold",
];

type Log = Rc<Cell<[u32; 9]>>;

/// The numbers from 1 up to `end`, by a source that counts the calls of what it writes itself.
trait Made: DoubleEndedFallibleIterator<Item = u32, Error = u8> {
    /// What it writes besides `next` and `next_back`.
    const WRITES: &'static [&'static str];

    fn made(end: u32, log: &Log) -> Self;
}

macro_rules! source {
    ($name:ident, [$($writes:ident)*]) => {
        struct $name {
            at: u32,
            end: u32,
            log: Log,
        }

        impl $name {
            fn called(&self, name: &str) {
                let mut log = self.log.get();
                log[NAMES.iter().position(|known| *known == name).unwrap()] += 1;
                self.log.set(log);
            }

            fn draw(&mut self) -> Option<u32> {
                if self.at == self.end {
                    return None;
                }
                self.at += 1;
                Some(self.at)
            }

            fn draw_back(&mut self) -> Option<u32> {
                if self.at == self.end {
                    return None;
                }
                self.end -= 1;
                Some(self.end + 1)
            }
        }

        impl Made for $name {
            const WRITES: &'static [&'static str] = &[$(stringify!($writes)),*];

            fn made(end: u32, log: &Log) -> Self {
                $name { at: 0, end, log: log.clone() }
            }
        }

        impl FallibleIterator for $name {
            type Item = u32;
            type Error = u8;

            fn next(&mut self) -> Result<Option<u32>, u8> {
                self.called("next");
                Ok(self.draw())
            }

            fn size_hint(&self) -> (usize, Option<usize>) {
                (0, Some((self.end - self.at) as usize))
            }

            $(written!($writes);)*
        }

        impl DoubleEndedFallibleIterator for $name {
            fn next_back(&mut self) -> Result<Option<u32>, u8> {
                self.called("next_back");
                Ok(self.draw_back())
            }

            $(written_back!($writes);)*
        }
    };
}

macro_rules! written {
    (nth) => {
        fn nth(&mut self, n: usize) -> Result<Option<u32>, u8> {
            self.called("nth");
            for _ in 0..n {
                self.draw();
            }
            Ok(self.draw())
        }
    };
    (try_fold) => {
        fn try_fold<B, E: From<u8>, F: FnMut(B, u32) -> Result<B, E>>(
            &mut self,
            init: B,
            mut f: F,
        ) -> Result<B, E> {
            self.called("try_fold");
            let mut value = init;
            while let Some(x) = self.draw() {
                value = f(value, x)?;
            }
            Ok(value)
        }
    };
    (count) => {
        fn count(mut self) -> Result<usize, u8> {
            self.called("count");
            Ok(std::iter::from_fn(|| self.draw()).count())
        }

        fn last(mut self) -> Result<Option<u32>, u8> {
            self.called("last");
            Ok(std::iter::from_fn(|| self.draw()).last())
        }
    };
    (find) => {
        fn find<F: FnMut(&u32) -> Result<bool, u8>>(
            &mut self,
            mut f: F,
        ) -> Result<Option<u32>, u8> {
            self.called("find");
            while let Some(x) = self.draw() {
                if f(&x)? {
                    return Ok(Some(x));
                }
            }
            Ok(None)
        }
    };
    (fold) => {
        fn fold<B, F: FnMut(B, u32) -> Result<B, u8>>(
            mut self,
            init: B,
            mut f: F,
        ) -> Result<B, u8> {
            self.called("fold");
            let mut value = init;
            while let Some(x) = self.draw() {
                value = f(value, x)?;
            }
            Ok(value)
        }
    };
}

macro_rules! written_back {
    (try_fold) => {
        fn try_rfold<B, E: From<u8>, F: FnMut(B, u32) -> Result<B, E>>(
            &mut self,
            init: B,
            mut f: F,
        ) -> Result<B, E> {
            self.called("try_rfold");
            let mut value = init;
            while let Some(x) = self.draw_back() {
                value = f(value, x)?;
            }
            Ok(value)
        }
    };
    ($other:ident) => {};
}

// Each subset of four, and `fold`.
source!(Source0, []);
source!(Source1, [nth]);
source!(Source2, [try_fold]);
source!(Source3, [count]);
source!(Source4, [find]);
source!(Source5, [nth try_fold]);
source!(Source6, [nth count]);
source!(Source7, [nth find]);
source!(Source8, [try_fold count]);
source!(Source9, [try_fold find]);
source!(Source10, [count find]);
source!(Source11, [nth try_fold count]);
source!(Source12, [nth try_fold find]);
source!(Source13, [nth count find]);
source!(Source14, [try_fold count find]);
source!(Source15, [nth try_fold count find]);
source!(Source16, [fold]);

/// The calls that `log` noted, by their names.
fn told(log: &Log) -> String {
    let named = NAMES.iter().zip(log.get()).filter(|(_, n)| *n > 0);
    named
        .map(|(name, n)| format!("{n} {name}"))
        .collect::<Vec<_>>()
        .join(" ")
}

/// Of `try_fold: 1 try_fold; 9 next` the first part whose call the source writes, else the last.
fn of_what_is_written<'a>(row: &'a str, writes: &[&str]) -> &'a str {
    let parts = row
        .split("; ")
        .map(|part| part.split_once(": ").unwrap_or(("", part)));
    parts
        .filter(|(call, _)| call.is_empty() || writes.contains(call))
        .map(|(_, calls)| calls)
        .next()
        .unwrap()
}

/// What a call over a source of so many numbers calls of it.
fn calls<S: Made, T>(items: u32, call: impl FnOnce(S, S) -> T) -> String {
    let log = Log::default();
    let (source, other) = (S::made(items, &log), S::made(items, &log));
    let _ = call(source, other);
    told(&log)
}

fn stop_at_two(n: u32, x: u32) -> Result<u32, u8> {
    if x == 2 { Err(n as u8) } else { Ok(n + 1) }
}

/// What each call over eight numbers calls of their source, in the original as here.
fn alike<S: Made>() {
    macro_rules! rows {
        ($s:ident, $other:ident; $($row:literal, $($call:expr),*;)*) => {
            $($({
                #[allow(unused_mut, unused_variables)]
                let called = calls(8, |mut $s: S, $other: S| $call);
                let expected = of_what_is_written($row, S::WRITES);
                assert_eq!(called, expected, "{}, over a source that writes {:?}", stringify!($call), S::WRITES);
            })*)*
        };
    }
    rows! { s, other;
        "nth: 1 nth; 3 next",
            s.nth(2),
            s.map_err(|e| e).nth(2),
            s.fuse().nth(2),
            Box::new(s).nth(2);
        "nth: 1 nth; 2 next",
            s.by_ref().nth(1);
        "try_fold: 1 try_fold; 2 next",
            s.try_fold(0, stop_at_two),
            s.position(|x| Ok(x == 2));
        "find: 1 find; try_fold: 1 try_fold; 9 next",
            s.find(|_| Ok(false));
        "try_fold: 1 try_fold; 9 next",
            s.all(|_| Ok(true)),
            s.for_each(|_| Ok(())),
            s.partition::<Vec<_>, _>(|_| Ok(true)),
            s.map(Ok).fold((), |(), _| Ok(())),
            s.filter(|x| Ok(x % 2 == 1)).count(),
            s.peekable().fold((), |(), _| Ok(()));
        "fold: 1 fold; try_fold: 1 try_fold; 9 next",
            s.fold((), |(), _| Ok(()));
        "count: 1 count; try_fold: 1 try_fold; 9 next",
            s.count(),
            s.map_err(|e| e).count(),
            s.enumerate().count(),
            s.fuse().count();
        "count: 1 last; try_fold: 1 try_fold; 9 next",
            s.last(),
            s.fuse().last();
        "9 next",
            s.collect::<Vec<_>>(),
            (&mut s).count(),
            Box::new(s).count();
        "try_fold: 1 try_rfold; 9 next_back",
            s.rfold((), |(), _| Ok(()));
        "3 next",
            s.map(Ok).nth(2),
            s.take(3).count();
        "try_fold: 3 try_fold; 5 next",
            s.filter(|x| Ok(x % 2 == 1)).nth(2);
        "count: 2 count; try_fold: 2 try_fold; 18 next",
            s.chain(other).count();
        "find: 2 find; try_fold: 2 try_fold; 18 next",
            s.chain(other).find(|_| Ok(false));
        "find: 1 find; try_fold: 1 try_fold; 2 next",
            s.skip_while(|x| Ok(*x < 2)).nth(0);
        "18 next",
            s.zip(other).fold((), |(), _| Ok(()));
    }
}

/// What is called otherwise: how many numbers, what their source writes besides `next`, the calls, and the original's.
fn otherwise<S: Made>() {
    macro_rules! rows {
        ($s:ident, $other:ident; $($items:literal, $writes:literal, $ours:literal, $originals:literal, $($call:expr),*;)*) => {
            $($(if S::WRITES.join(" ") == $writes {
                #[allow(unused_mut, unused_variables)]
                let called = calls($items, |mut $s: S, $other: S| $call);
                assert_eq!(called, $ours, "{}, where the original has {}", stringify!($call), $originals);
            })*)*
        };
    }
    rows! { s, other;
        0, "try_fold", "1 try_fold", "1 next",
            s.find_map(|x| Ok((x == 2).then_some(x))),
            s.max(),
            s.step_by(2).fold((), |(), _| Ok(())),
            s.take_while(|x| Ok(*x < 3)).fold((), |(), _| Ok(())),
            s.scan(0, |_, x| Ok(Some(x))).fold((), |(), _| Ok(()));
        0, "fold", "1 next", "1 fold",
            s.count(),
            s.last(),
            s.for_each(|_| Ok(())),
            s.partition::<Vec<_>, _>(|_| Ok(true)),
            s.map_err(|e| e).count(),
            s.enumerate().count(),
            s.fuse().count(),
            s.fuse().last();
        0, "nth", "1 next", "1 nth",
            s.skip(1).next(),
            s.enumerate().nth(2),
            s.skip(2).count();
        0, "", "1 next_back", "1 next",
            s.rev().count();
        1, "try_fold", "1 try_fold", "2 try_fold",
            s.filter(|x| Ok(x % 2 == 1)).max();
        0, "fold", "2 next", "2 fold",
            s.chain(other).count();
        1, "nth", "2 next", "1 next 1 nth",
            s.step_by(2).nth(2);
        2, "find", "1 next 1 find", "2 find",
            s.skip_while(|x| Ok(*x < 2)).fold((), |(), _| Ok(()));
    }
}

#[test]
fn own_calls_are_called_as_by_the_original() {
    alike::<Source0>();
    alike::<Source1>();
    alike::<Source2>();
    alike::<Source3>();
    alike::<Source4>();
    alike::<Source5>();
    alike::<Source6>();
    alike::<Source7>();
    alike::<Source8>();
    alike::<Source9>();
    alike::<Source10>();
    alike::<Source11>();
    alike::<Source12>();
    alike::<Source13>();
    alike::<Source14>();
    alike::<Source15>();
    alike::<Source16>();
}

#[test]
fn what_is_called_otherwise_is_told() {
    otherwise::<Source0>();
    otherwise::<Source1>();
    otherwise::<Source2>();
    otherwise::<Source3>();
    otherwise::<Source4>();
    otherwise::<Source16>();
}
