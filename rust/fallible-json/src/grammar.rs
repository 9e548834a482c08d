//! Which tokens may come, token by token.

use crate::token::Token;
use crate::wanted::Wanted;
use alloc::vec::Vec;
use program_io::memory::TryVec;

// What encloses values.
#[derive(Clone, Copy, PartialEq, Eq, Debug)]
pub(crate) enum Container {
    Array,
    Object,
}

// What may come next.
#[derive(Clone, Copy, Debug)]
pub(crate) enum Expects {
    // A value.
    Value,
    // A value, or the end of an array without values.
    ValueOrEnd,
    // A name, or the end of an object without members.
    NameOrEnd,
    // A name.
    Name,
    // The separator after a name.
    Separator,
    // What comes after a value: a separator, the end of the container, or the end of the text.
    AfterValue,
}

// What a token is where it may stand.
#[derive(Clone, Copy)]
pub(crate) enum Step {
    // A value that encloses nothing.
    Scalar,
    // The begin of a container.
    Opens(Container),
    // The end of a container.
    Closes(Container),
    // The name of a member.
    Names,
    // The separator after a name.
    Separates,
    // The separator after a value.
    GoesOn,
}

// Why a token was not taken.
#[derive(Clone, Copy, PartialEq, Eq)]
pub(crate) enum Stop {
    // It may not stand there.
    Unexpected,
    // An allocation failed.
    Memory,
}

// What a token is where a value may come.
fn value_step(token: Token) -> Option<Step> {
    match token {
        Token::Text | Token::Number | Token::Literal => Some(Step::Scalar),
        Token::BeginArray => Some(Step::Opens(Container::Array)),
        Token::BeginObject => Some(Step::Opens(Container::Object)),
        _ => None,
    }
}

// What a token is where this may come.
fn step_of(expects: Expects, token: Token) -> Option<Step> {
    match (expects, token) {
        (Expects::ValueOrEnd, Token::EndArray) => Some(Step::Closes(Container::Array)),
        (Expects::Value | Expects::ValueOrEnd, _) => value_step(token),
        (Expects::NameOrEnd, Token::EndObject) => Some(Step::Closes(Container::Object)),
        (Expects::Name | Expects::NameOrEnd, Token::Text) => Some(Step::Names),
        (Expects::Separator, Token::NameSeparator) => Some(Step::Separates),
        (Expects::AfterValue, Token::ValueSeparator) => Some(Step::GoesOn),
        (Expects::AfterValue, Token::EndArray) => Some(Step::Closes(Container::Array)),
        (Expects::AfterValue, Token::EndObject) => Some(Step::Closes(Container::Object)),
        _ => None,
    }
}

// What may come first in a container.
fn expected_first_in(container: Container) -> Expects {
    match container {
        Container::Array => Expects::ValueOrEnd,
        Container::Object => Expects::NameOrEnd,
    }
}

// What may come after a separator in a container.
fn next_in(container: Container) -> Expects {
    match container {
        Container::Array => Expects::Value,
        Container::Object => Expects::Name,
    }
}

// Where tokens have come to: the containers that are open, of which each is within the one before, and what may come next.
#[derive(Clone, Debug)]
pub(crate) struct Nesting {
    pub(crate) containers: Vec<Container>,
    pub(crate) expects: Expects,
}

impl Nesting {
    // A step more. One that may not come leaves it as it was.
    fn take(&mut self, step: Step) -> Result<(), Stop> {
        match step {
            Step::Scalar => self.expects = Expects::AfterValue,
            Step::Opens(container) => {
                // No memory: a push fails only if an allocation does.
                if self.containers.try_push(container).is_err() {
                    return Err(Stop::Memory);
                }
                self.expects = expected_first_in(container);
            }
            Step::Closes(container) => {
                match (self.containers.last(), container) {
                    (Some(Container::Array), Container::Array) => {}
                    (Some(Container::Object), Container::Object) => {}
                    _ => return Err(Stop::Unexpected),
                }
                let _innermost = self.containers.pop();
                self.expects = Expects::AfterValue;
            }
            Step::Names => self.expects = Expects::Separator,
            Step::Separates => self.expects = Expects::Value,
            Step::GoesOn => {
                let innermost = match self.containers.last() {
                    Some(innermost) => innermost,
                    _ => {
                        return Err(Stop::Unexpected);
                    }
                };
                self.expects = next_in(*innermost);
            }
        }
        Ok(())
    }

    // Whether the tokens so far are one JSON text.
    pub(crate) fn is_whole(&self) -> bool {
        match self.expects {
            Expects::AfterValue => self.containers.is_empty(),
            _ => false,
        }
    }

    // The tokens that may come.
    pub(crate) fn wanted(&self) -> Wanted {
        match self.expects {
            Expects::Value => Wanted::Value,
            Expects::ValueOrEnd => Wanted::ValueOrEnd,
            Expects::NameOrEnd => Wanted::NameOrEnd,
            Expects::Name => Wanted::Name,
            Expects::Separator => Wanted::Colon,
            Expects::AfterValue => match self.containers.last() {
                Some(Container::Array) => Wanted::CommaOrBracket,
                Some(Container::Object) => Wanted::CommaOrBrace,
                None => Wanted::End,
            },
        }
    }

    // One token more. One that may not come leaves it as it was.
    pub(crate) fn after(&mut self, token: Token) -> Result<(), Stop> {
        match step_of(self.expects, token) {
            Some(step) => self.take(step),
            None => Err(Stop::Unexpected),
        }
    }
}
