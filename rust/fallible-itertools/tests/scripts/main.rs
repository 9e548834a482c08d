//! Drives each adapter by every script of at most four answers, and compares answers, draws and leftovers with a rule over whole lists.
#![cfg(feature = "std")]
// What is erased leaves imports behind, and one argument.
#![allow(unused, clippy::all)]

mod answer;
mod back;
mod case;
mod comparing;
mod consuming;
mod cutting;
mod driving;
mod failing;
mod filtering;
mod gathering;
mod holding;
mod itertools_rules;
mod joining;
mod layers;
mod lists;
mod looking;
mod merging;
mod nests;
mod one_to_one;
mod operating;
mod operation;
mod peeking;
mod rfolding;
mod rows;
mod rules;
mod script;

/// What no allocation returns.
#[derive(Debug, Clone, Copy, PartialEq, Eq)]
pub enum AllocError {}

impl From<AllocError> for io::Error {
    fn from(refused: AllocError) -> io::Error {
        match refused {}
    }
}
mod tagged;

use back::OverBack;
use comparing::drive_comparisons;
use consuming::drive_consumers;
use driving::{Tally, drive};
use gathering::drive_gathering;
use layers::Over;
use rows::drive_rows;
use std::io;
use tagged::drive_tagged;

#[test]
fn each_adapter_by_every_short_script() -> io::Result<()> {
    let mut total = Tally::none();
    drive_one_to_one(&mut total)?;
    drive_filtering(&mut total)?;
    drive_cutting(&mut total)?;
    drive_joining(&mut total)?;
    drive_nests(&mut total)?;
    drive_itertools(&mut total)?;
    drive_from_back(&mut total)?;
    drive_rows(&mut total)?;
    drive_consumers(&mut total)?;
    drive_comparisons(&mut total)?;
    drive_gathering(&mut total)?;
    drive_tagged(&mut total)?;
    let cases = total.cases;
    let mismatches = total.mismatches;
    assert_eq!((cases, mismatches), (1628788, 0));
    Ok(())
}

fn drive_one_to_one(total: &mut Tally) -> io::Result<()> {
    drive::<one_to_one::Borrowed>(total);
    drive::<Over<one_to_one::MappedByCalls>>(total)?;
    drive::<Over<one_to_one::InspectedByCalls>>(total)?;
    drive::<Over<one_to_one::FailuresMapped>>(total)?;
    drive::<one_to_one::Clones>(total)?;
    drive::<Over<one_to_one::ClonesOfMapped>>(total)?;
    drive::<Over<one_to_one::Scanned>>(total)?;
    drive::<Over<one_to_one::MappedWhile>>(total)?;
    drive::<one_to_one::Enumerated>(total)
}

fn drive_filtering(total: &mut Tally) -> io::Result<()> {
    drive::<Over<filtering::FilteredByCalls>>(total)?;
    drive::<Over<filtering::FilterMappedByCalls>>(total)?;
    drive::<filtering::PlacesByCalls>(total)?;
    drive::<Over<filtering::SkippedWhileByCalls>>(total)?;
    drive::<filtering::SkippedWhileFailing>(total)
}

fn drive_cutting(total: &mut Tally) -> io::Result<()> {
    drive::<cutting::TakenNone>(total)?;
    drive::<Over<cutting::TakenTwo>>(total)?;
    drive::<Over<cutting::TakenWhileByCalls>>(total)?;
    drive::<cutting::TakenWhileFailing>(total)?;
    drive::<Over<cutting::Fused>>(total)?;
    drive::<Over<cutting::SkippedOne>>(total)?;
    drive::<cutting::SkippedTwo>(total)?;
    drive::<Over<cutting::SteppedByTwo>>(total)
}

fn drive_joining(total: &mut Tally) -> io::Result<()> {
    drive::<Over<joining::ChainedInFront>>(total)?;
    drive::<Over<joining::ChainedBehind>>(total)?;
    drive::<joining::ZippedLeft>(total)?;
    drive::<joining::ZippedRight>(total)?;
    drive::<joining::FlattenedOuter>(total)?;
    drive::<joining::FlattenedInner>(total)?;
    drive::<joining::FlatMappedOuter>(total)?;
    drive::<joining::FlatMappedInner>(total)?;
    drive::<joining::Cycled>(total)
}

fn drive_nests(total: &mut Tally) -> io::Result<()> {
    drive::<peeking::Unpeeked>(total)?;
    drive::<Over<peeking::Peeked>>(total)?;
    drive::<peeking::TakenIf>(total)?;
    drive::<peeking::FoldedIf>(total)?;
    drive::<nests::FilteredMappedTaken>(total)?;
    drive::<nests::ChainedFused>(total)?;
    drive::<nests::FlattenedPeekable>(total)?;
    drive::<nests::FlattenedPeeked>(total)
}

fn drive_itertools(total: &mut Tally) -> io::Result<()> {
    drive::<Over<looking::CopiesOfMapped>>(total)?;
    drive::<Over<looking::TakenWhileInclusive>>(total)?;
    drive::<Over<looking::PeekedWhile>>(total)?;
    drive::<Over<failing::ShownByCalls>>(total)?;
    drive::<failing::RecoveredByCalls>(total)?;
    drive::<Over<failing::FailuresRaised>>(total)?;
    drive::<Over<failing::FailuresIndexed>>(total)?;
    drive::<Over<failing::FusedAtFailure>>(total)?;
    drive::<Over<failing::StoppedAfterTwo>>(total)?;
    drive::<Over<holding::Deduped>>(total)?;
    drive::<Over<holding::DedupedByKey>>(total)?;
    drive::<Over<holding::DedupedBy>>(total)?;
    drive::<holding::Counted>(total)?;
    drive::<holding::CountedBy>(total)?;
    drive::<Over<holding::Coalesced>>(total)?;
    drive::<holding::Positioned>(total)?;
    drive::<holding::ChunkedByKey>(total)?;
    drive::<holding::InTwos>(total)?;
    drive::<holding::Unique>(total)?;
    drive::<holding::UniqueBy>(total)?;
    drive::<holding::Duplicates>(total)?;
    drive::<holding::Windowed>(total)?;
    drive::<holding::Tupled>(total)?;
    drive::<Over<holding::Separated>>(total)?;
    drive::<Over<holding::SeparatedByCalls>>(total)?;
    drive::<Over<merging::MergedLeft>>(total)?;
    drive::<Over<merging::MergedRight>>(total)?;
    drive::<merging::MergedInOrder>(total)?;
    drive::<merging::ManyOfTwo>(total)?;
    drive::<merging::ManyOfThree>(total)?;
    drive::<merging::ManyByCalls>(total)?;
    drive::<merging::ManyGreaterFirst>(total)?;
    drive::<merging::ZippedLongestLeft>(total)?;
    drive::<merging::ZippedLongestRight>(total)?;
    drive::<Over<merging::PaddedByCalls>>(total)?;
    drive::<merging::ZippedEqualLeft>(total)?;
    drive::<merging::ZippedEqualRight>(total)?;
    drive::<merging::JoinedInOrderLeft>(total)?;
    drive::<merging::JoinedInOrderRight>(total)?;
    drive::<merging::InterleavedLeft>(total)?;
    drive::<merging::InterleavedRight>(total)
}

fn drive_from_back(total: &mut Tally) -> io::Result<()> {
    drive::<back::Reversed>(total)?;
    drive::<back::ReversedTwice>(total)?;
    drive::<OverBack<one_to_one::MappedByCalls>>(total)?;
    drive::<OverBack<one_to_one::InspectedByCalls>>(total)?;
    drive::<OverBack<one_to_one::FailuresMapped>>(total)?;
    drive::<OverBack<one_to_one::ClonesOfMapped>>(total)?;
    drive::<OverBack<filtering::FilteredByCalls>>(total)?;
    drive::<OverBack<filtering::FilterMappedByCalls>>(total)?;
    drive::<OverBack<joining::ChainedInFront>>(total)?;
    drive::<OverBack<joining::ChainedBehind>>(total)
}
