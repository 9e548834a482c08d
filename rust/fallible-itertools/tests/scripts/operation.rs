//! What is done with a nest, and what comes of it.
use crate::AllocError;
use crate::answer::{Answer, Seen};

/// What is done with a nest. Numbers of items are counted from 0.
#[derive(Clone, Copy, PartialEq, Eq, Debug)]
pub enum Operation {
    /// draws by `next` until the item with that number, a failure or an end
    Draws(u32),
    /// a call that leaves the nest, and stops at the item with that number
    Borrowing(Borrowing, u32),
    /// a call that takes the nest, and stops at the item with that number, where it stops at items
    Taking(Taking, u32),
    /// `position`, which is true on the item with that number
    Position(u32),
    /// `count`
    Count,
    /// a call from the back, of the nest itself and not of its `rev`, which stops at the item with that number
    FromBack(FromBack, u32),
}

/// A call that leaves the nest.
#[derive(Clone, Copy, PartialEq, Eq, Debug)]
pub enum Borrowing {
    /// `try_fold`, which fails with 7 on the item
    TryFold,
    /// `nth` of the item's number
    Nth,
    /// `find`, which is true on the item
    Find,
    /// `find_map`, which returns the item
    FindMap,
    /// `all`, which is false on the item
    All,
    /// `any`, which is true on the item
    Any,
}

/// A call that takes the nest.
#[derive(Clone, Copy, PartialEq, Eq, Debug)]
pub enum Taking {
    /// `fold`, which fails with 7 on the item
    Fold,
    /// `for_each`, which fails with 7 on the item
    ForEach,
    /// `last`
    Last,
    /// `collect` into a `Vec`
    Collect,
}

/// A call from the back.
#[derive(Clone, Copy, PartialEq, Eq, Debug)]
pub enum FromBack {
    /// draws by `next_back` until the item, a failure or an end
    Draws,
    /// `try_rfold`, which fails with 7 on the item
    TryRfold,
    /// `rfold`, which fails with 7 on the item
    Rfold,
}

/// The items that came before the answer that decided.
#[derive(Clone, Copy, PartialEq, Eq, Debug)]
pub struct Passed {
    /// how many they are
    pub number: u32,
    /// the last one, 0 where there is none
    pub last: u32,
    /// all of them, mixed into one number
    pub mixed: u32,
}

impl Passed {
    /// No item.
    pub fn none() -> Passed {
        Passed {
            number: 0,
            last: 0,
            mixed: 0,
        }
    }

    /// One more item.
    pub fn and(self, x: u32) -> Passed {
        Passed {
            number: self.number.wrapping_add(1),
            last: x,
            mixed: self.mixed.wrapping_mul(10007).wrapping_add(x),
        }
    }
}

/// What came of an operation.
#[derive(Clone, Copy, PartialEq, Eq, Debug)]
pub struct Outcome {
    /// the items before the answer that decided, where the operation shows them
    pub passed: Passed,
    /// the answer that decided
    pub answer: Answer,
    /// how many answers the scripts had given by then
    pub draws: u32,
    /// the next eight answers, where the operation leaves the nest
    pub after: Option<[Seen; 8]>,
}

/// What the operation must come to, by what came of draws up to the same item.
pub fn wanted(operation: Operation, drawn: Outcome) -> Outcome {
    match operation {
        Operation::Draws(_) | Operation::FromBack(FromBack::Draws | FromBack::TryRfold, _) => drawn,
        Operation::FromBack(FromBack::Rfold, _) => wanted_of_taking(Taking::Fold, drawn),
        Operation::Borrowing(call, _) => wanted_of_borrowing(call, drawn),
        Operation::Taking(call, _) => wanted_of_taking(call, drawn),
        Operation::Position(_) => Outcome {
            answer: match drawn.answer {
                Answer::Item(_) => Answer::Item(drawn.passed.number),
                other => other,
            },
            ..drawn
        },
        Operation::Count => Outcome {
            passed: Passed::none(),
            answer: match drawn.answer {
                Answer::End => Answer::Item(drawn.passed.number),
                other => other,
            },
            draws: drawn.draws,
            after: None,
        },
    }
}

// What a call that leaves the nest comes to: `nth` shows no items, and `all` and `any` answer as one that is 0 and one that is 1.
fn wanted_of_borrowing(call: Borrowing, drawn: Outcome) -> Outcome {
    let answer = match (call, drawn.answer) {
        (Borrowing::All, Answer::Item(_)) => Answer::Item(0),
        (Borrowing::All, Answer::End) => Answer::Item(1),
        (Borrowing::Any, Answer::Item(_)) => Answer::Item(1),
        (Borrowing::Any, Answer::End) => Answer::Item(0),
        (_, answer) => answer,
    };
    let passed = if call == Borrowing::Nth {
        Passed::none()
    } else {
        drawn.passed
    };
    Outcome {
        passed,
        answer,
        ..drawn
    }
}

// What a call that takes the nest comes to: `last` and a `collect` that failed show no items.
fn wanted_of_taking(call: Taking, drawn: Outcome) -> Outcome {
    let is_empty = drawn.passed.number == 0;
    let answer = match (call, drawn.answer) {
        (Taking::Last, Answer::End) if !is_empty => Answer::Item(drawn.passed.last),
        (_, answer) => answer,
    };
    let shows_items = match call {
        Taking::Fold | Taking::ForEach => true,
        Taking::Collect => answer == Answer::End,
        Taking::Last => false,
    };
    Outcome {
        passed: if shows_items {
            drawn.passed
        } else {
            Passed::none()
        },
        answer,
        draws: drawn.draws,
        after: None,
    }
}
