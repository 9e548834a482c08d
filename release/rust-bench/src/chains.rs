//! The chains of adapters.
use crate::draining::{Answer, Failure, Way};
use crate::loops::mixed;
use fallible_iterator::{convert, FallibleIterator};
use std::ops::Range;

/// What the numbers of a chain come from.
pub trait Source {
    /// The numbers of a range.
    fn numbers(range: Range<u64>) -> impl FallibleIterator<Item = u64, Error = Failure>;
}

/// A std iterator, converted.
pub struct Converted;

impl Source for Converted {
    #[inline(always)]
    fn numbers(range: Range<u64>) -> impl FallibleIterator<Item = u64, Error = Failure> {
        convert(range.map(Ok::<u64, Failure>))
    }
}

/// A chain of std's, converted.
pub struct Chained;

impl Source for Chained {
    #[inline(always)]
    fn numbers(range: Range<u64>) -> impl FallibleIterator<Item = u64, Error = Failure> {
        let half = range.start + (range.end - range.start) / 2;
        convert(
            (range.start..half)
                .chain(half..range.end)
                .map(Ok::<u64, Failure>),
        )
    }
}

/// A type of one's own, which writes `next` alone.
pub struct Own;

impl Source for Own {
    #[inline(always)]
    fn numbers(range: Range<u64>) -> impl FallibleIterator<Item = u64, Error = Failure> {
        Between { range }
    }
}

struct Between {
    range: Range<u64>,
}

impl FallibleIterator for Between {
    type Item = u64;
    type Error = Failure;

    fn next(&mut self) -> Result<Option<u64>, Failure> {
        Ok(self.range.next())
    }
}

#[inline(never)]
pub fn count<W: Way, S: Source>(n: u64) -> Answer {
    W::counted(
        S::numbers(0..n)
            .map(|x: u64| Ok(mixed(x, x)))
            .filter(|y: &u64| Ok(*y % 3 == 0)),
    )
}

#[inline(never)]
pub fn fold<W: Way, S: Source>(n: u64) -> Answer {
    W::drained(
        S::numbers(0..n)
            .map(|x: u64| Ok(mixed(x, x)))
            .filter(|y: &u64| Ok(*y % 3 == 0)),
    )
}

#[inline(never)]
pub fn filter_map<W: Way, S: Source>(n: u64) -> Answer {
    W::drained(
        S::numbers(0..n).filter_map(|x: u64| Ok(if x % 7 == 0 { None } else { Some(x ^ 5) })),
    )
}

#[inline(never)]
pub fn chain<W: Way, S: Source>(n: u64) -> Answer {
    W::drained(S::numbers(0..n / 2).chain(S::numbers(0..n / 2)))
}

/// The source alone.
#[inline(never)]
pub fn plain<W: Way, S: Source>(n: u64) -> Answer {
    W::drained(S::numbers(0..n))
}

#[inline(never)]
pub fn flatten<W: Way, S: Source>(n: u64) -> Answer {
    W::drained(S::numbers(0..n / 100).flat_map(|_: u64| Ok(S::numbers(0..100))))
}

#[inline(never)]
pub fn chain_flat_map<W: Way, S: Source>(n: u64) -> Answer {
    W::drained(
        S::numbers(0..n / 6)
            .chain(S::numbers(0..n / 6))
            .flat_map(|x: u64| Ok(S::numbers(x..x + 3))),
    )
}

/// Inner iterators of one to three numbers.
#[inline(never)]
pub fn short<W: Way, S: Source>(n: u64) -> Answer {
    W::drained(S::numbers(0..n / 2).flat_map(|x: u64| Ok(S::numbers(0..x % 3 + 1))))
}

/// One number kept of a hundred.
#[inline(never)]
pub fn sparse<W: Way, S: Source>(n: u64) -> Answer {
    W::drained(S::numbers(0..n).filter(|x: &u64| Ok(*x % 100 == 0)))
}

#[inline(never)]
pub fn skip_while<W: Way, S: Source>(n: u64) -> Answer {
    W::drained(S::numbers(0..n).skip_while(move |x: &u64| Ok(*x < n / 4)))
}

#[inline(never)]
pub fn step_by<W: Way, S: Source>(n: u64) -> Answer {
    W::drained(
        S::numbers(0..n)
            .take_while(move |x: &u64| Ok(*x < n - n / 4))
            .skip(10)
            .step_by(3),
    )
}

#[inline(never)]
pub fn peekable<W: Way, S: Source>(n: u64) -> Answer {
    let mut ahead = S::numbers(0..n).peekable();
    ahead.peek()?;
    W::drained(ahead)
}

#[inline(never)]
pub fn collect<W: Way, S: Source>(n: u64) -> Answer {
    W::collected(S::numbers(0..n).map(|x: u64| Ok(mixed(x, x))))
}

/// A fold into a struct of eight numbers.
#[inline(never)]
pub fn eight<W: Way, S: Source>(n: u64) -> Answer {
    W::eight_of(S::numbers(0..n).map(|x: u64| Ok(mixed(x, x))))
}

/// A failure in the place of every third number.
#[inline(never)]
pub fn failures<W: Way>(n: u64) -> Answer {
    let answers = (0..n).map(|x: u64| if x % 3 == 0 { Err(x) } else { Ok(x) });
    W::answered(convert(answers).map_err(|e: u64| e ^ 5))
}

/// What std draws of a fallible iterator.
#[inline(never)]
pub fn iterator<W: Way, S: Source>(n: u64) -> Answer {
    W::iterated(
        S::numbers(0..n)
            .map(|x: u64| Ok(mixed(x, x)))
            .filter(|y: &u64| Ok(*y % 3 == 0)),
    )
}

#[inline(never)]
pub fn zip<W: Way, S: Source>(n: u64) -> Answer {
    W::drained(
        S::numbers(0..n)
            .zip(S::numbers(7..u64::MAX))
            .map(|both: (u64, u64)| Ok(both.0 ^ both.1)),
    )
}

#[inline(never)]
pub fn scan<W: Way, S: Source>(n: u64) -> Answer {
    W::drained(S::numbers(0..n).scan(0, |state: &mut u64, x: u64| {
        *state = mixed(*state, x);
        Ok(Some(*state))
    }))
}

/// Ten adapters, a chain among them.
#[inline(never)]
pub fn nest<W: Way, S: Source>(n: u64) -> Answer {
    W::drained(
        S::numbers(0..n / 2)
            .map(|x: u64| Ok(mixed(x, x)))
            .filter(|y: &u64| Ok(*y % 3 != 0))
            .chain(S::numbers(0..n / 2))
            .skip_while(move |x: &u64| Ok(*x < n / 8))
            .inspect(|_: &u64| Ok(()))
            .filter_map(|x: u64| Ok(if x % 7 == 0 { None } else { Some(x ^ 5) }))
            .fuse()
            .take_while(move |z: &u64| Ok(*z != n))
            .skip(10)
            .map(|z: u64| Ok(mixed(z, 1))),
    )
}

/// A chain as the first of another, and adapters below and above them.
#[inline(never)]
pub fn chains<W: Way, S: Source>(n: u64) -> Answer {
    W::drained(
        S::numbers(0..n / 4)
            .chain(S::numbers(0..n / 4))
            .map(|x: u64| Ok(mixed(x, x)))
            .filter(|y: &u64| Ok(*y % 3 == 0))
            .chain(S::numbers(0..n / 2))
            .map(|z: u64| Ok(z ^ 5))
            .inspect(|_: &u64| Ok(())),
    )
}
