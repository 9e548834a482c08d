//! Adapters with two ends, over twins that are drawn from the back, by calls from the back and through `rev`.

use crate::AllocError;
use crate::answer::{Answer, Failed, Seen};
use crate::case::{Case, Given, Run};
use crate::filtering::{FilterMappedByCalls, FilteredByCalls};
use crate::joining::{BESIDE, ChainedBehind, ChainedInFront};
use crate::layers::Layer;
use crate::one_to_one::{ClonesOfMapped, FailuresMapped, InspectedByCalls, MappedByCalls};
use crate::operation::Outcome;
use crate::rfolding::operate_back;
use crate::rules::{POINTED_TO, by_calls, unchanged};
use crate::script::Twin;
use fallible_iterator::{DoubleEndedFallibleIterator, FallibleIterator};
use std::marker::PhantomData;

/// What the end that is not drawn from yields.
pub const NOTHING: [Answer; 4] = [Answer::End, Answer::End, Answer::End, Answer::End];

/// A twin that yields the script from the back, and nothing from the front.
pub fn from_back<'a>(run: &Run<'a>) -> Twin<'a> {
    Twin::new(run.other(NOTHING), run.script())
}

/// `rev`.
pub struct Reversed;

impl Case for Reversed {
    fn name() -> &'static str {
        "rev"
    }

    fn perform(run: &Run<'_>) -> Result<Option<Outcome>, AllocError> {
        let mut twin = from_back(run);
        operate_back(run, &mut twin)
    }

    fn expected(given: &Given) -> Result<Vec<Seen>, AllocError> {
        unchanged(given.all.as_slice())
    }
}

/// `rev`, drawn from the back.
pub struct ReversedTwice;

impl Case for ReversedTwice {
    fn name() -> &'static str {
        "rev, from the back"
    }

    fn perform(run: &Run<'_>) -> Result<Option<Outcome>, AllocError> {
        let mut twin = Twin::new(run.script(), run.other(NOTHING));
        operate_back(run, (&mut twin).rev())
    }

    fn expected(given: &Given) -> Result<Vec<Seen>, AllocError> {
        unchanged(given.all.as_slice())
    }
}

/// What is done with a source that has two ends.
pub trait VisitBack {
    /// Does it. A layer yields at most four items for each of its source's, and eight more.
    fn visit<I>(run: &Run<'_>, it: I) -> Result<Option<Outcome>, AllocError>
    where
        I: DoubleEndedFallibleIterator<Item = u32, Error = Failed>;
}

/// A layer that has two ends where its source has. From the back it has the same rule.
pub trait LayerBack: Layer {
    /// Does with the adapter over the source what `V` does.
    fn over_back<I, V: VisitBack>(run: &Run<'_>, it: I) -> Result<Option<Outcome>, AllocError>
    where
        I: DoubleEndedFallibleIterator<Item = u32, Error = Failed>;
}

/// Does the operation of the run from the back.
pub struct OperatedBack;

impl VisitBack for OperatedBack {
    fn visit<I>(run: &Run<'_>, it: I) -> Result<Option<Outcome>, AllocError>
    where
        I: DoubleEndedFallibleIterator<Item = u32, Error = Failed>,
    {
        operate_back(run, it)
    }
}

/// The layer over a twin, from the back.
pub struct OverBack<L> {
    layer: PhantomData<L>,
}

impl<L: LayerBack> Case for OverBack<L> {
    fn name() -> &'static str {
        L::name()
    }

    fn source() -> &'static str {
        "a twin, from the back"
    }

    fn perform(run: &Run<'_>) -> Result<Option<Outcome>, AllocError> {
        let mut twin = from_back(run);
        L::over_back::<_, OperatedBack>(run, &mut twin)
    }

    fn expected(given: &Given) -> Result<Vec<Seen>, AllocError> {
        L::rule(given.all.as_slice(), 0)
    }
}

impl LayerBack for MappedByCalls {
    fn over_back<I, V: VisitBack>(run: &Run<'_>, it: I) -> Result<Option<Outcome>, AllocError>
    where
        I: DoubleEndedFallibleIterator<Item = u32, Error = Failed>,
    {
        let mut calls: u32 = 0;
        let nest = it.map(|x: u32| {
            calls = calls.wrapping_add(1);
            if calls % 3 == 0 {
                Err(Failed(8))
            } else {
                Ok(x.wrapping_mul(10).wrapping_add(calls))
            }
        });
        V::visit(run, nest)
    }
}

impl LayerBack for InspectedByCalls {
    fn over_back<I, V: VisitBack>(run: &Run<'_>, it: I) -> Result<Option<Outcome>, AllocError>
    where
        I: DoubleEndedFallibleIterator<Item = u32, Error = Failed>,
    {
        let mut calls: u32 = 0;
        let nest = it.inspect(|x: &u32| {
            calls = calls.wrapping_add(1);
            if calls % 3 == 0 {
                Err(Failed((*x).wrapping_add(8)))
            } else {
                Ok(())
            }
        });
        V::visit(run, nest)
    }
}

impl LayerBack for FailuresMapped {
    fn over_back<I, V: VisitBack>(run: &Run<'_>, it: I) -> Result<Option<Outcome>, AllocError>
    where
        I: DoubleEndedFallibleIterator<Item = u32, Error = Failed>,
    {
        let mut calls: u32 = 0;
        let nest = it.map_err(|e: Failed| {
            calls = calls.wrapping_add(1);
            Failed(e.0.wrapping_add(100).wrapping_add(calls))
        });
        V::visit(run, nest)
    }
}

impl LayerBack for ClonesOfMapped {
    fn over_back<I, V: VisitBack>(run: &Run<'_>, it: I) -> Result<Option<Outcome>, AllocError>
    where
        I: DoubleEndedFallibleIterator<Item = u32, Error = Failed>,
    {
        let numbers = &POINTED_TO;
        let nest = it.map(|x: u32| Ok(&numbers[(x % 8) as usize])).cloned();
        V::visit(run, nest)
    }
}

impl LayerBack for FilteredByCalls {
    fn over_back<I, V: VisitBack>(run: &Run<'_>, it: I) -> Result<Option<Outcome>, AllocError>
    where
        I: DoubleEndedFallibleIterator<Item = u32, Error = Failed>,
    {
        let mut calls: u32 = 0;
        let nest = it.filter(|x: &u32| {
            calls = calls.wrapping_add(1);
            by_calls(calls, *x).map_err(Failed)
        });
        V::visit(run, nest)
    }
}

impl LayerBack for FilterMappedByCalls {
    fn over_back<I, V: VisitBack>(run: &Run<'_>, it: I) -> Result<Option<Outcome>, AllocError>
    where
        I: DoubleEndedFallibleIterator<Item = u32, Error = Failed>,
    {
        let mut calls: u32 = 0;
        let nest = it.filter_map(|x: u32| {
            calls = calls.wrapping_add(1);
            match by_calls(calls, x) {
                Ok(true) => Ok(Some(x.wrapping_mul(10).wrapping_add(calls))),
                Ok(false) => Ok(None),
                Err(e) => Err(Failed(e)),
            }
        });
        V::visit(run, nest)
    }
}

// From the back the source comes first where it is chained after the other.
impl LayerBack for ChainedInFront {
    fn over_back<I, V: VisitBack>(run: &Run<'_>, it: I) -> Result<Option<Outcome>, AllocError>
    where
        I: DoubleEndedFallibleIterator<Item = u32, Error = Failed>,
    {
        let mut beside = Twin::new(run.other(NOTHING), run.other(BESIDE));
        V::visit(run, (&mut beside).chain(it))
    }
}

// From the back the source comes second where it is chained in front of the other.
impl LayerBack for ChainedBehind {
    fn over_back<I, V: VisitBack>(run: &Run<'_>, it: I) -> Result<Option<Outcome>, AllocError>
    where
        I: DoubleEndedFallibleIterator<Item = u32, Error = Failed>,
    {
        let mut beside = Twin::new(run.other(NOTHING), run.other(BESIDE));
        V::visit(run, it.chain(&mut beside))
    }
}
