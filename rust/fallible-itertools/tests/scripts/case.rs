//! A nest over a script, and the rule for it.
use crate::AllocError;
use crate::answer::{Answer, Seen};
use crate::lists::whole;
use crate::operation::{Operation, Outcome};
use crate::script::Script;
use std::cell::Cell;

/// One run of a nest: what its script yields, and what is done with it.
pub struct Run<'a> {
    /// the answers of the script
    pub answers: [Answer; 4],
    /// what is done with the nest
    pub operation: Operation,
    /// how many answers all scripts of the run have given
    pub draws: &'a Cell<u32>,
}

impl<'a> Run<'a> {
    /// The script.
    pub fn script(&self) -> Script<'a> {
        Script::new(self.answers, self.draws)
    }

    /// A script of other answers.
    pub fn other(&self, answers: [Answer; 4]) -> Script<'a> {
        Script::new(answers, self.draws)
    }
}

/// What a rule is called on: all that the script yields.
pub struct Given {
    /// the answers of the script
    pub answers: [Answer; 4],
    /// the same and the ends after them, each with its draws
    pub all: Vec<Seen>,
}

impl Given {
    /// All that a script of these answers yields.
    pub fn new(answers: [Answer; 4]) -> Result<Given, AllocError> {
        Ok(Given {
            answers,
            all: whole(answers)?,
        })
    }
}

/// A nest that a script is put under, and its rule.
pub trait Case {
    /// What it is called.
    fn name() -> &'static str;

    /// What it stands over.
    fn source() -> &'static str {
        "a script"
    }

    /// Makes the nest over the script of the run, and does the operation with it; none where the operation is not for the nest.
    fn perform(run: &Run<'_>) -> Result<Option<Outcome>, AllocError>;

    /// The answers of the nest, by its rule over all that the script yields.
    fn expected(given: &Given) -> Result<Vec<Seen>, AllocError>;
}
