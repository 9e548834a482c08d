//! Every list of at most four answers.

use crate::AllocError;
use crate::answer::{Answer, Seen};

/// How many lists there are: 1 of no answers, 4 of one, 16 of two, 64 of three and 256 of four.
pub const LISTS: u32 = 341;

/// The list with that number, filled up with ends: a script ends where its list is over.
pub fn list_at(number: u32) -> [Answer; 4] {
    let of_four = match number {
        0 => 0,
        1..=4 => number.wrapping_sub(1),
        5..=20 => number.wrapping_sub(5),
        21..=84 => number.wrapping_sub(21),
        _ => number.wrapping_sub(85),
    };
    [
        choice(of_four % 4),
        choice(of_four / 4 % 4),
        choice(of_four / 16 % 4),
        choice(of_four / 64 % 4),
    ]
}

// One of the four answers that the lists are made of.
fn choice(number: u32) -> Answer {
    match number {
        0 => Answer::End,
        1 => Answer::Item(1),
        2 => Answer::Item(2),
        _ => Answer::Failure(9),
    }
}

/// All that a script of these answers yields, as far as it is looked at: the answers, and then ends.
pub fn whole(answers: [Answer; 4]) -> Result<Vec<Seen>, AllocError> {
    let mut all = Vec::new();
    let mut draws: u32 = 0;
    for answer in answers {
        draws = draws.wrapping_add(1);
        all.push(Seen { answer, draws });
    }
    for _ in 0..40 {
        draws = draws.wrapping_add(1);
        all.push(Seen {
            answer: Answer::End,
            draws,
        });
    }
    Ok(all)
}
