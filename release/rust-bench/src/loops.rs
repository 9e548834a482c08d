//! The loops written by hand.
use crate::eight::Eight;

/// What a number adds to the value so far. Each value depends on the one before, so no compiler finds the answer without
/// the loop.
pub fn mixed(value: u64, x: u64) -> u64 {
    value.wrapping_mul(3) ^ x
}

/// The same of numbers of four bytes.
pub fn mixed_small(value: u32, x: u32) -> u32 {
    value.wrapping_mul(3) ^ x
}

#[inline(never)]
pub fn count(n: u64) -> u64 {
    let mut kept: u64 = 0;
    for x in 0..n {
        if mixed(x, x) % 3 == 0 {
            kept = kept.wrapping_add(1);
        }
    }
    kept
}

#[inline(never)]
pub fn fold(n: u64) -> u64 {
    let mut value = 0;
    for x in 0..n {
        let y = mixed(x, x);
        if y % 3 == 0 {
            value = mixed(value, y);
        }
    }
    value
}

#[inline(never)]
pub fn filter_map(n: u64) -> u64 {
    let mut value = 0;
    for x in 0..n {
        if x % 7 != 0 {
            value = mixed(value, x ^ 5);
        }
    }
    value
}

#[inline(never)]
pub fn chain(n: u64) -> u64 {
    let mut value = 0;
    for x in 0..n / 2 {
        value = mixed(value, x);
    }
    for x in 0..n / 2 {
        value = mixed(value, x);
    }
    value
}

#[inline(never)]
pub fn flatten(n: u64) -> u64 {
    let mut value = 0;
    for _ in 0..n / 100 {
        for x in 0..100 {
            value = mixed(value, x);
        }
    }
    value
}

#[inline(never)]
pub fn chain_flat_map(n: u64) -> u64 {
    let mut value = 0;
    for x in (0..n / 6).chain(0..n / 6) {
        for y in x..x + 3 {
            value = mixed(value, y);
        }
    }
    value
}

#[inline(never)]
pub fn short(n: u64) -> u64 {
    let mut value = 0;
    for x in 0..n / 2 {
        for y in 0..x % 3 + 1 {
            value = mixed(value, y);
        }
    }
    value
}

#[inline(never)]
pub fn sparse(n: u64) -> u64 {
    let mut value = 0;
    for x in 0..n {
        if x % 100 == 0 {
            value = mixed(value, x);
        }
    }
    value
}

#[inline(never)]
pub fn skip_while(n: u64) -> u64 {
    let mut value = 0;
    let mut skips = true;
    for x in 0..n {
        if skips && x < n / 4 {
            continue;
        }
        skips = false;
        value = mixed(value, x);
    }
    value
}

#[inline(never)]
pub fn step_by(n: u64) -> u64 {
    let mut value = 0;
    let mut left_out: u64 = 10;
    for x in 0..n {
        if n - n / 4 <= x {
            return value;
        }
        if left_out == 0 {
            value = mixed(value, x);
            left_out = 2;
        } else {
            left_out -= 1;
        }
    }
    value
}

#[inline(never)]
pub fn plain(n: u64) -> u64 {
    let mut value = 0;
    for x in 0..n {
        value = mixed(value, x);
    }
    value
}

#[inline(never)]
pub fn collect(n: u64) -> u64 {
    let mut numbers = Vec::new();
    for x in 0..n {
        numbers.push(mixed(x, x));
    }
    sum_of(numbers)
}

/// The numbers of a vector, mixed into one.
pub fn sum_of(numbers: Vec<u64>) -> u64 {
    let mut value = 0;
    for x in numbers {
        value = mixed(value, x);
    }
    value
}

#[inline(never)]
pub fn eight(n: u64) -> u64 {
    let mut eight = Eight::zero();
    for x in 0..n {
        eight = eight.with(mixed(x, x));
    }
    eight.all()
}

#[inline(never)]
pub fn failures(n: u64) -> u64 {
    let mut value = 0;
    for x in 0..n {
        if x % 3 == 0 {
            value = mixed(value, x ^ 5);
        } else {
            value = mixed(value, x);
        }
    }
    value
}

#[inline(never)]
pub fn zip(n: u64) -> u64 {
    let mut value = 0;
    let mut y: u64 = 7;
    for x in 0..n {
        value = mixed(value, x ^ y);
        y = y.wrapping_add(1);
    }
    value
}

#[inline(never)]
pub fn scan(n: u64) -> u64 {
    let mut value = 0;
    let mut state = 0;
    for x in 0..n {
        state = mixed(state, x);
        value = mixed(value, state);
    }
    value
}

/// What the ten adapters keep between two numbers.
struct Nest {
    n: u64,
    value: u64,
    skips: bool,
    left_out: u64,
}

impl Nest {
    /// Takes one number in. It answers whether the loop goes on.
    fn take(&mut self, y: u64) -> bool {
        if self.skips && y < self.n / 8 {
            return true;
        }
        self.skips = false;
        if y % 7 == 0 {
            return true;
        }
        let z = y ^ 5;
        if z == self.n {
            return false;
        }
        if self.left_out == 0 {
            self.value = mixed(self.value, mixed(z, 1));
        } else {
            self.left_out -= 1;
        }
        true
    }
}

#[inline(never)]
pub fn nest(n: u64) -> u64 {
    let mut nest = Nest {
        n,
        value: 0,
        skips: true,
        left_out: 10,
    };
    for x in 0..n / 2 {
        let y = mixed(x, x);
        if y % 3 != 0 && !nest.take(y) {
            return nest.value;
        }
    }
    for x in 0..n / 2 {
        if !nest.take(x) {
            return nest.value;
        }
    }
    nest.value
}

#[inline(never)]
pub fn chains(n: u64) -> u64 {
    let mut value = 0;
    for _ in 0..2 {
        for x in 0..n / 4 {
            let y = mixed(x, x);
            if y % 3 == 0 {
                value = mixed(value, y ^ 5);
            }
        }
    }
    for x in 0..n / 2 {
        value = mixed(value, x ^ 5);
    }
    value
}
