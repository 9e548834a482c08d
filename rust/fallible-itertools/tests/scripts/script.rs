//! A source of four scripted answers.

use crate::AllocError;
use crate::answer::{Answer, Failed};
use fallible_iterator::{DoubleEndedFallibleIterator, FallibleIterator};
use std::cell::Cell;

/// Yields four answers one by one, and then ends. It tells how many it has given, ends among them, to a count that several scripts may share.
#[derive(Clone, Copy)]
pub struct Script<'a> {
    answers: [Answer; 4],
    place: usize,
    draws: &'a Cell<u32>,
}

impl<'a> Script<'a> {
    /// Yields these answers, and adds what it has given to `draws`.
    pub fn new(answers: [Answer; 4], draws: &'a Cell<u32>) -> Script<'a> {
        Script {
            answers,
            place: 0,
            draws,
        }
    }
}

impl<'a> FallibleIterator for Script<'a> {
    type Item = u32;

    type Error = Failed;

    fn next(&mut self) -> Result<Option<u32>, Failed> {
        self.draws.set(self.draws.get().wrapping_add(1));
        if self.place < 4 {
            let answer = self.answers[self.place];
            self.place += 1;
            answer.drawn()
        } else {
            Ok(None)
        }
    }

    fn size_hint(&self) -> (usize, Option<usize>) {
        (0, None)
    }
}

/// One script for each end, drawn from on its own: what comes from the front says nothing of what comes from the back.
#[derive(Clone, Copy)]
pub struct Twin<'a> {
    front: Script<'a>,
    back: Script<'a>,
}

impl<'a> Twin<'a> {
    /// Yields the answers of one script from the front, and those of another from the back.
    pub fn new(front: Script<'a>, back: Script<'a>) -> Twin<'a> {
        Twin { front, back }
    }
}

impl<'a> FallibleIterator for Twin<'a> {
    type Item = u32;

    type Error = Failed;

    fn next(&mut self) -> Result<Option<u32>, Failed> {
        self.front.next()
    }

    fn size_hint(&self) -> (usize, Option<usize>) {
        (0, None)
    }
}

impl<'a> DoubleEndedFallibleIterator for Twin<'a> {
    fn next_back(&mut self) -> Result<Option<u32>, Failed> {
        self.back.next()
    }
}

/// Yields for the items 1 and 2 of a script references to two numbers.
#[derive(Clone, Copy)]
pub struct Pointing<'a> {
    script: Script<'a>,
    numbers: &'a [u32; 2],
}

impl<'a> Pointing<'a> {
    /// Points to these numbers.
    pub fn new(script: Script<'a>, numbers: &'a [u32; 2]) -> Pointing<'a> {
        Pointing { script, numbers }
    }
}

impl<'a> FallibleIterator for Pointing<'a> {
    type Item = &'a u32;

    type Error = Failed;

    fn next(&mut self) -> Result<Option<&'a u32>, Failed> {
        match self.script.next() {
            Ok(Some(1)) => Ok(Some(&self.numbers[0])),
            Ok(Some(_)) => Ok(Some(&self.numbers[1])),
            Ok(None) => Ok(None),
            Err(e) => Err(e),
        }
    }

    fn size_hint(&self) -> (usize, Option<usize>) {
        (0, None)
    }
}
