//! Adapters over any source.

use crate::AllocError;
use crate::answer::{Failed, Seen};
use crate::case::{Case, Given, Run};
use crate::operating::operate;
use crate::operation::Outcome;
use fallible_iterator::FallibleIterator;
use std::marker::PhantomData;

/// What is done with a source.
pub trait Visit {
    /// Does it. A layer yields at most four items for each of its source's, and four more.
    fn visit<I>(run: &Run<'_>, it: I) -> Result<Option<Outcome>, AllocError>
    where
        I: FallibleIterator<Item = u32, Error = Failed>;
}

/// An adapter over any source of numbers, and its rule.
pub trait Layer {
    /// What it is called.
    fn name() -> &'static str;

    /// Does with the adapter over the source what `V` does.
    fn over<I, V: Visit>(run: &Run<'_>, it: I) -> Result<Option<Outcome>, AllocError>
    where
        I: FallibleIterator<Item = u32, Error = Failed>;

    /// How many answers it draws of its source at its making.
    fn made() -> u32 {
        0
    }

    /// The answers of the adapter, by its rule over all that the source yields, which drew so many answers at its making.
    fn rule(source: &[Seen], made: u32) -> Result<Vec<Seen>, AllocError>;
}

/// Does the operation of the run.
pub struct Operated;

impl Visit for Operated {
    fn visit<I>(run: &Run<'_>, it: I) -> Result<Option<Outcome>, AllocError>
    where
        I: FallibleIterator<Item = u32, Error = Failed>,
    {
        operate(run, it)
    }
}

/// The layer over a borrowed script.
pub struct Over<L> {
    layer: PhantomData<L>,
}

impl<L: Layer> Case for Over<L> {
    fn name() -> &'static str {
        L::name()
    }

    fn perform(run: &Run<'_>) -> Result<Option<Outcome>, AllocError> {
        let mut script = run.script();
        L::over::<_, Operated>(run, &mut script)
    }

    fn expected(given: &Given) -> Result<Vec<Seen>, AllocError> {
        L::rule(given.all.as_slice(), 0)
    }
}
