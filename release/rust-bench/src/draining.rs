//! The two ways of draining a chain.
use crate::eight::Eight;
use crate::loops::{mixed, mixed_small, sum_of};
use fallible_iterator::FallibleIterator;

/// What a source may fail with. Those of the chains don't, but for one chain.
pub type Failure = u64;

/// The numbers mixed into one, or the first failure.
pub type Answer = Result<u64, Failure>;

/// What a source of small items may fail with.
pub type SmallFailure = u8;

/// Small numbers mixed into one, or the first failure.
pub type SmallAnswer = Result<u32, SmallFailure>;

/// A way of draining.
pub trait Way {
    /// The numbers.
    fn drained<I: FallibleIterator<Item = u64, Error = Failure>>(it: I) -> Answer;
    /// How many numbers there are.
    fn counted<I: FallibleIterator<Item = u64, Error = Failure>>(it: I) -> Answer;
    /// The numbers, by a vector.
    fn collected<I: FallibleIterator<Item = u64, Error = Failure>>(it: I) -> Answer;
    /// The numbers, by a struct of eight.
    fn eight_of<I: FallibleIterator<Item = u64, Error = Failure>>(it: I) -> Answer;
    /// The numbers and the failures, which are numbers too.
    fn answered<I: FallibleIterator<Item = u64, Error = Failure>>(it: I) -> Answer;
    /// The numbers, by what std draws.
    fn iterated<I: FallibleIterator<Item = u64, Error = Failure>>(it: I) -> Answer;
    /// Small numbers, mixed into the value.
    fn drained_small<I>(value: u32, it: I) -> SmallAnswer
    where
        I: FallibleIterator<Item = u32, Error = SmallFailure>;
    /// How many small numbers there are, mixed into the value.
    fn counted_small<I>(value: u32, it: I) -> SmallAnswer
    where
        I: FallibleIterator<Item = u32, Error = SmallFailure>;
}

/// By a fold.
pub struct Fold;

impl Way for Fold {
    fn drained<I: FallibleIterator<Item = u64, Error = Failure>>(it: I) -> Answer {
        it.fold(0, |value: u64, x: u64| Ok(mixed(value, x)))
    }

    fn counted<I: FallibleIterator<Item = u64, Error = Failure>>(it: I) -> Answer {
        Ok(it.count()? as u64)
    }

    fn collected<I: FallibleIterator<Item = u64, Error = Failure>>(it: I) -> Answer {
        Ok(sum_of(it.collect()?))
    }

    fn eight_of<I: FallibleIterator<Item = u64, Error = Failure>>(it: I) -> Answer {
        Ok(it
            .fold(Eight::zero(), |eight: Eight, x: u64| Ok(eight.with(x)))?
            .all())
    }

    // A fold up to each failure.
    fn answered<I: FallibleIterator<Item = u64, Error = Failure>>(mut it: I) -> Answer {
        let mut value = 0;
        loop {
            let ended: Result<(), Failure> = it.try_fold((), |(), x: u64| {
                value = mixed(value, x);
                Ok(())
            });
            match ended {
                Ok(()) => return Ok(value),
                Err(e) => value = mixed(value, e),
            }
        }
    }

    fn iterated<I: FallibleIterator<Item = u64, Error = Failure>>(it: I) -> Answer {
        it.iterator()
            .try_fold(0, |value: u64, answer| Ok(mixed(value, answer?)))
    }

    fn drained_small<I>(value: u32, it: I) -> SmallAnswer
    where
        I: FallibleIterator<Item = u32, Error = SmallFailure>,
    {
        it.fold(value, |value: u32, x: u32| Ok(mixed_small(value, x)))
    }

    fn counted_small<I>(value: u32, it: I) -> SmallAnswer
    where
        I: FallibleIterator<Item = u32, Error = SmallFailure>,
    {
        Ok(mixed_small(value, it.count()? as u32))
    }
}

/// By a loop over `next`.
pub struct Next;

impl Way for Next {
    fn drained<I: FallibleIterator<Item = u64, Error = Failure>>(mut it: I) -> Answer {
        let mut value = 0;
        while let Some(x) = it.next()? {
            value = mixed(value, x);
        }
        Ok(value)
    }

    fn counted<I: FallibleIterator<Item = u64, Error = Failure>>(mut it: I) -> Answer {
        let mut count: u64 = 0;
        while it.next()?.is_some() {
            count = count.wrapping_add(1);
        }
        Ok(count)
    }

    fn collected<I: FallibleIterator<Item = u64, Error = Failure>>(mut it: I) -> Answer {
        let mut numbers = Vec::new();
        while let Some(x) = it.next()? {
            numbers.push(x);
        }
        Ok(sum_of(numbers))
    }

    fn eight_of<I: FallibleIterator<Item = u64, Error = Failure>>(mut it: I) -> Answer {
        let mut eight = Eight::zero();
        while let Some(x) = it.next()? {
            eight = eight.with(x);
        }
        Ok(eight.all())
    }

    fn answered<I: FallibleIterator<Item = u64, Error = Failure>>(mut it: I) -> Answer {
        let mut value = 0;
        loop {
            match it.next() {
                Ok(Some(x)) => value = mixed(value, x),
                Ok(None) => return Ok(value),
                Err(e) => value = mixed(value, e),
            }
        }
    }

    fn iterated<I: FallibleIterator<Item = u64, Error = Failure>>(it: I) -> Answer {
        let mut value = 0;
        for answer in it.iterator() {
            value = mixed(value, answer?);
        }
        Ok(value)
    }

    fn drained_small<I>(value: u32, mut it: I) -> SmallAnswer
    where
        I: FallibleIterator<Item = u32, Error = SmallFailure>,
    {
        let mut value = value;
        while let Some(x) = it.next()? {
            value = mixed_small(value, x);
        }
        Ok(value)
    }

    fn counted_small<I>(value: u32, mut it: I) -> SmallAnswer
    where
        I: FallibleIterator<Item = u32, Error = SmallFailure>,
    {
        let mut count: u32 = 0;
        while it.next()?.is_some() {
            count = count.wrapping_add(1);
        }
        Ok(mixed_small(value, count))
    }
}
