//! The folds of the adapters that let items pass, through their sources' own. The adapter's state stands beside the caller's, and a reference points to each.

use crate::base::drive::Drive;
use crate::base::drive::DriveBack;
use crate::base::fallible_contract::folds::Beside;
use crate::base::fallible_contract::folds::Turn;
use crate::base::fallible_contract::folds::answer_within;
use crate::base::fallible_contract::passing::Pass;
use crate::base::fallible_contract::passing::PassTurn;
use fallible_iterator::DoubleEndedFallibleIterator;
use fallible_iterator::FallibleIterator;

/// The fold from the front of an adapter: what becomes of each item of the source, and the caller's turn on what is kept.
#[inline(always)]
pub fn drive_passing<
    I: FallibleIterator,
    P,
    A: Pass<P, I::Item, I::Error>,
    C,
    R,
    K: Turn<C, A::Kept, R>,
>(
    it: &mut I,
    p: &mut P,
    adapter: &A,
    state: &mut C,
    turn: &K,
) -> Result<Option<R>, I::Error> {
    let mut both = Beside { c: state, p };
    let answer = it.by_turns(&mut both, &PassTurn { adapter, turn });
    answer_within(answer)
}

/// The fold from the back of an adapter: what becomes of each item of the source, and the caller's turn on what is kept.
#[inline(always)]
pub fn drive_back_passing<
    I: DoubleEndedFallibleIterator,
    P,
    A: Pass<P, I::Item, I::Error>,
    C,
    R,
    K: Turn<C, A::Kept, R>,
>(
    it: &mut I,
    p: &mut P,
    adapter: &A,
    state: &mut C,
    turn: &K,
) -> Result<Option<R>, I::Error> {
    let mut both = Beside { c: state, p };
    let answer = it.back_by_turns(&mut both, &PassTurn { adapter, turn });
    answer_within(answer)
}
