//! The chains over small items: numbers of four bytes and failures of one, from a slice.
use crate::draining::{Answer, SmallAnswer, SmallFailure, Way};
use crate::loops::mixed_small;
use fallible_iterator::{FallibleIterator, convert};
use std::hint::black_box;

/// How many numbers the slice has.
const LENGTH: usize = 1000;

static NUMBERS: [u32; LENGTH] = numbers_apart();

// Numbers that lie far apart. None is the greatest that there is.
const fn numbers_apart() -> [u32; LENGTH] {
    let mut numbers = [0; LENGTH];
    let mut at = 0;
    while at < LENGTH {
        numbers[at] = (at as u32).wrapping_mul(2_654_435_761);
        at += 1;
    }
    numbers
}

/// The answer of a chain over the slice, again and again, until n numbers came.
pub fn answer_over(n: u64, chain: fn(u32, &'static [u32]) -> SmallAnswer) -> Answer {
    let mut value = 0;
    for _ in 0..n / LENGTH as u64 {
        value = chain(value, black_box(&NUMBERS))?;
    }
    Ok(u64::from(value))
}

/// The same of a loop written by hand.
pub fn value_over(n: u64, by_hand: fn(u32, &'static [u32]) -> SmallAnswer) -> u64 {
    answer_over(n, by_hand).unwrap_or(0)
}

// A number, or the failure that the greatest number is.
fn read(number: &u32) -> Result<u32, SmallFailure> {
    if *number == u32::MAX {
        Err(7)
    } else {
        Ok(*number)
    }
}

fn numbers(slice: &'static [u32]) -> impl FallibleIterator<Item = u32, Error = SmallFailure> {
    convert(slice.iter().map(read))
}

#[inline(never)]
pub fn count<W: Way>(value: u32, slice: &'static [u32]) -> SmallAnswer {
    W::counted_small(
        value,
        numbers(slice)
            .map(|x: u32| Ok(mixed_small(x, x)))
            .filter(|y: &u32| Ok(*y % 3 == 0)),
    )
}

#[inline(never)]
pub fn fold<W: Way>(value: u32, slice: &'static [u32]) -> SmallAnswer {
    W::drained_small(
        value,
        numbers(slice)
            .map(|x: u32| Ok(mixed_small(x, x)))
            .filter(|y: &u32| Ok(*y % 3 == 0)),
    )
}

#[inline(never)]
pub fn filter_map<W: Way>(value: u32, slice: &'static [u32]) -> SmallAnswer {
    W::drained_small(
        value,
        numbers(slice).filter_map(|x: u32| Ok(if x % 7 == 0 { None } else { Some(x ^ 5) })),
    )
}

#[inline(never)]
pub fn chain<W: Way>(value: u32, slice: &'static [u32]) -> SmallAnswer {
    let (first, second) = slice.split_at(LENGTH / 2);
    W::drained_small(value, numbers(first).chain(numbers(second)))
}

/// Three numbers of each number of a third of the slice.
#[inline(never)]
pub fn chain_flat_map<W: Way>(value: u32, slice: &'static [u32]) -> SmallAnswer {
    let (first, second) = slice[..LENGTH / 3].split_at(LENGTH / 6);
    W::drained_small(
        value,
        numbers(first)
            .chain(numbers(second))
            .flat_map(|x: u32| Ok(convert((0..3).map(move |y| Ok(x ^ y))))),
    )
}

#[inline(never)]
pub fn step_by<W: Way>(value: u32, slice: &'static [u32]) -> SmallAnswer {
    W::drained_small(
        value,
        numbers(slice)
            .take_while(|x: &u32| Ok(*x != 3))
            .skip(10)
            .step_by(3),
    )
}

/// Ten adapters, a chain among them.
#[inline(never)]
pub fn nest<W: Way>(value: u32, slice: &'static [u32]) -> SmallAnswer {
    let (first, second) = slice.split_at(LENGTH / 2);
    W::drained_small(
        value,
        numbers(first)
            .map(|x: u32| Ok(mixed_small(x, x)))
            .filter(|y: &u32| Ok(*y % 3 != 0))
            .chain(numbers(second))
            .skip_while(|x: &u32| Ok(*x < 1000))
            .inspect(|_: &u32| Ok(()))
            .filter_map(|x: u32| Ok(if x % 7 == 0 { None } else { Some(x ^ 5) }))
            .fuse()
            .take_while(|z: &u32| Ok(*z != 3))
            .skip(10)
            .map(|z: u32| Ok(mixed_small(z, 1))),
    )
}

/// The loops written by hand.
pub mod by_hand {
    use super::{LENGTH, mixed_small, read};
    use crate::draining::SmallAnswer;

    #[inline(never)]
    pub fn count(value: u32, slice: &'static [u32]) -> SmallAnswer {
        let mut kept: u32 = 0;
        for x in slice {
            let x = read(x)?;
            if mixed_small(x, x) % 3 == 0 {
                kept = kept.wrapping_add(1);
            }
        }
        Ok(mixed_small(value, kept))
    }

    #[inline(never)]
    pub fn fold(mut value: u32, slice: &'static [u32]) -> SmallAnswer {
        for x in slice {
            let x = read(x)?;
            let y = mixed_small(x, x);
            if y % 3 == 0 {
                value = mixed_small(value, y);
            }
        }
        Ok(value)
    }

    #[inline(never)]
    pub fn filter_map(mut value: u32, slice: &'static [u32]) -> SmallAnswer {
        for x in slice {
            let x = read(x)?;
            if x % 7 != 0 {
                value = mixed_small(value, x ^ 5);
            }
        }
        Ok(value)
    }

    #[inline(never)]
    pub fn chain(mut value: u32, slice: &'static [u32]) -> SmallAnswer {
        for x in slice {
            value = mixed_small(value, read(x)?);
        }
        Ok(value)
    }

    #[inline(never)]
    pub fn chain_flat_map(mut value: u32, slice: &'static [u32]) -> SmallAnswer {
        for x in &slice[..LENGTH / 3] {
            let x = read(x)?;
            for y in 0..3 {
                value = mixed_small(value, x ^ y);
            }
        }
        Ok(value)
    }

    #[inline(never)]
    pub fn step_by(mut value: u32, slice: &'static [u32]) -> SmallAnswer {
        let mut left_out: u32 = 10;
        for x in slice {
            let x = read(x)?;
            if x == 3 {
                return Ok(value);
            }
            if left_out == 0 {
                value = mixed_small(value, x);
                left_out = 2;
            } else {
                left_out -= 1;
            }
        }
        Ok(value)
    }

    #[inline(never)]
    pub fn nest(mut value: u32, slice: &'static [u32]) -> SmallAnswer {
        let mut skips = true;
        let mut left_out: u32 = 10;
        for (at, x) in slice.iter().enumerate() {
            let mut x = read(x)?;
            if at < LENGTH / 2 {
                x = mixed_small(x, x);
                if x % 3 == 0 {
                    continue;
                }
            }
            if skips && x < 1000 || x % 7 == 0 {
                continue;
            }
            skips = false;
            let z = x ^ 5;
            if z == 3 {
                return Ok(value);
            }
            if left_out == 0 {
                value = mixed_small(value, mixed_small(z, 1));
            } else {
                left_out -= 1;
            }
        }
        Ok(value)
    }
}
