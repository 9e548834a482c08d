//! The value of a fold that is eight numbers.
use crate::loops::mixed;

/// Eight numbers, each of which takes in the one before it.
#[derive(Clone, Copy)]
pub struct Eight {
    numbers: [u64; 8],
}

impl Eight {
    /// The numbers before any other came.
    pub fn zero() -> Eight {
        Eight { numbers: [0; 8] }
    }

    /// The numbers once x came.
    pub fn with(self, x: u64) -> Eight {
        let mut numbers = self.numbers;
        numbers[0] = mixed(numbers[0], x);
        for at in 1..8 {
            numbers[at] ^= numbers[at - 1];
        }
        Eight { numbers }
    }

    /// The numbers, mixed into one.
    pub fn all(self) -> u64 {
        self.numbers[1..]
            .iter()
            .fold(self.numbers[0], |value, x| mixed(value, *x))
    }
}
