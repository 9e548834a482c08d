//! What draws return, as plain values.
use crate::AllocError;
use fallible_itertools::{EitherOrBoth, Position};

/// A failure of a source, of a closure or of a clone, as a number.
#[derive(Clone, Copy, PartialEq, Eq, Debug)]
pub struct Failed(pub u32);

impl From<AllocError> for Failed {
    fn from(_refused: AllocError) -> Failed {
        Failed(100)
    }
}

/// What one draw answered.
#[derive(Clone, Copy, PartialEq, Eq, Debug)]
pub enum Answer {
    /// an item, as a number
    Item(u32),
    /// a failure
    Failure(u32),
    /// an end
    End,
}

impl Answer {
    /// The answer, as a draw yields it.
    pub fn drawn(self) -> Result<Option<u32>, Failed> {
        match self {
            Answer::Item(x) => Ok(Some(x)),
            Answer::Failure(e) => Err(Failed(e)),
            Answer::End => Ok(None),
        }
    }

    /// What a draw answered, its item as a number.
    pub fn of<T: Coded>(drawn: Result<Option<T>, Failed>) -> Answer {
        match drawn {
            Ok(Some(x)) => Answer::Item(x.code()),
            Ok(None) => Answer::End,
            Err(e) => Answer::Failure(e.0),
        }
    }

    /// A number, or a failure.
    pub fn of_number(number: Result<usize, Failed>) -> Answer {
        match number {
            Ok(n) => Answer::Item(usize_code(n)),
            Err(e) => Answer::Failure(e.0),
        }
    }
}

/// An answer, and how many answers the scripts had given by then.
#[derive(Clone, Copy, PartialEq, Eq, Debug)]
pub struct Seen {
    /// what was returned
    pub answer: Answer,
    /// how many answers the scripts had given by then
    pub draws: u32,
}

/// An item of a nest, which is compared as a number.
pub trait Coded {
    /// The item as a number.
    fn code(&self) -> u32;
}

impl Coded for u32 {
    fn code(&self) -> u32 {
        *self
    }
}

// A small number and an item.
impl Coded for (usize, u32) {
    fn code(&self) -> u32 {
        pair_code(usize_code(self.0), self.1)
    }
}

impl Coded for (u32, u32) {
    fn code(&self) -> u32 {
        pair_code(self.0, self.1)
    }
}

// Items after nothing.
impl Coded for Vec<u32> {
    fn code(&self) -> u32 {
        items_code(0, self.as_slice())
    }
}

// Items after a key.
impl Coded for (u32, Vec<u32>) {
    fn code(&self) -> u32 {
        items_code(self.0, self.1.as_slice())
    }
}

impl Coded for usize {
    fn code(&self) -> u32 {
        usize_code(*self)
    }
}

// An item after its position: 1 first, 2 between others, 3 last, 4 alone.
impl Coded for (Position, u32) {
    fn code(&self) -> u32 {
        let position = match self.0 {
            Position::First => 1,
            Position::Middle => 2,
            Position::Last => 3,
            Position::Only => 4,
        };
        pair_code(position, self.1)
    }
}

// A pair, in which 0 stands for no item.
impl Coded for EitherOrBoth<u32, u32> {
    fn code(&self) -> u32 {
        match self {
            EitherOrBoth::Both(x, y) => pair_code(*x, *y),
            EitherOrBoth::Left(x) => pair_code(*x, 0),
            EitherOrBoth::Right(y) => pair_code(0, *y),
        }
    }
}

/// One more item after those that a number stands for.
pub fn append_digit(read: u32, x: u32) -> u32 {
    read.wrapping_mul(101).wrapping_add(x)
}

/// The number of items after what a number stands for.
pub fn items_code(read: u32, items: &[u32]) -> u32 {
    let mut read = read;
    for x in items {
        read = append_digit(read, *x);
    }
    read
}

/// The number of a pair.
pub fn pair_code(x: u32, y: u32) -> u32 {
    x.wrapping_mul(1000).wrapping_add(y)
}

// The number, where it fits.
fn usize_code(n: usize) -> u32 {
    u32::try_from(n).unwrap_or(u32::MAX)
}
