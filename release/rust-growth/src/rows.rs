//! What a row is: a call, the classes that its definition allows, and the shapes that it is run over.
use crate::input::{Input, Shape, Way};

/// How a figure of an item may grow with a number.
#[derive(Clone, Copy, Debug, PartialEq)]
pub enum Growth {
    /// Not at all.
    Flat,
    /// As its logarithm does.
    Log,
    /// As it does.
    Linear,
}

/// How many items a call may hold at once.
#[derive(Clone, Copy, Debug, PartialEq)]
pub enum Held {
    /// A number that is none of the input's.
    Few,
    /// As many as k.
    K,
    /// As many as there are.
    All,
    /// As many as there are different keys.
    Keys,
    /// As many as the longest run of equal keys.
    Run,
}

impl Held {
    /// The same for a shape, as one of the first three.
    pub fn over(self, shape: Shape) -> Held {
        match (self, shape) {
            (Held::Keys, Shape::Equal) => Held::Few,
            (Held::Keys, Shape::Keys) => Held::K,
            (Held::Keys, _) => Held::All,
            (Held::Run, Shape::Equal) => Held::All,
            (Held::Run, Shape::Runs | Shape::Uneven) => Held::K,
            (Held::Run, _) => Held::Few,
            (held, _) => held,
        }
    }
}

pub type Run = fn(Input, Way);

pub struct Row {
    pub call: &'static str,
    /// How what an item costs may grow with n, and with k.
    pub growth: [Growth; 2],
    pub held: Held,
    pub shapes: &'static [Shape],
    pub run: Run,
}

pub const FLAT: [Growth; 2] = [Growth::Flat, Growth::Flat];
pub const LOG: [Growth; 2] = [Growth::Log, Growth::Flat];
pub const LOG_K: [Growth; 2] = [Growth::Flat, Growth::Log];

pub const fn row(
    call: &'static str,
    growth: [Growth; 2],
    held: Held,
    shapes: &'static [Shape],
    run: Run,
) -> Row {
    Row { call, growth, held, shapes, run }
}

/// Of calls that no item's key concerns.
pub const ANY: &[Shape] = &[Shape::Different, Shape::Long, Shape::Failing];

/// Of calls that look which items are equal.
pub const EQUALS: &[Shape] = &[
    Shape::Different,
    Shape::Equal,
    Shape::Keys,
    Shape::Runs,
    Shape::Uneven,
    Shape::Long,
    Shape::Failing,
];

/// Of calls that look which items are less.
pub const ORDERS: &[Shape] = &[
    Shape::Different,
    Shape::Falling,
    Shape::Scattered,
    Shape::Equal,
    Shape::Runs,
    Shape::Long,
    Shape::Failing,
];

/// Of calls over two sources.
pub const TWO: &[Shape] = &[
    Shape::Interleaved,
    Shape::Mixed,
    Shape::OneAfterAnother,
    Shape::FirstHasAll,
    Shape::Equal,
    Shape::Long,
    Shape::Failing,
];

/// Of calls that take failures for faults of their caller.
pub const SURE: &[Shape] = &[Shape::Different, Shape::Long];

/// Of calls over no source of an input's.
pub const ONE: &[Shape] = &[Shape::Different];
