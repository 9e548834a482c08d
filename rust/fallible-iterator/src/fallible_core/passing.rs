//! The folds of the adapters that let items pass, through their sources' own. The adapter's state stands beside the caller's, and a reference points to each.

use crate::fallible_contract::folds::{Beside, Turn, answer_within};
use crate::fallible_contract::passing::{Outcome, Pass, PassTurn};
use crate::fallible_core::traits::FallibleIterator;
use crate::fallible_core::traits::double_ended::DoubleEndedFallibleIterator;
use core::convert::Infallible;
use core::ops::ControlFlow;

/// The fold from the front of an adapter: what becomes of each item of the source, and the caller's turn on what is kept.
///
/// <details><summary>Contract</summary>
///
/// As it is proved, in [these words](crate::words):
///
/// ```text
/// requires can_next { I.contract.can_next it.old }
/// requires finite { I.contract.is_finite it.old }
/// requires callable { CallableDriving I.contract.steps
///     (FoldingTurn (A.call adapter.now) (A.outcome adapter.now) (K.turns turn.now))
///     (FoldingTakes (A.call adapter.now) (A.outcome adapter.now)
///     (A.can_pass adapter.now) (K.can_turn turn.now))
///     it.old (state.old, p.old) }
/// ensures { Driven (passing_step I.contract.steps (A.call adapter.now) (A.outcome adapter.now))
///     (K.turns turn.now) (it.old, p.old) state.old result (it.new, p.new) state.new }
/// ```
/// </details>
#[inline(always)]
pub fn drive_passing<
    I: FallibleIterator,
    P,
    A: Pass<P, I::Item, I::Error>,
    C,
    R,
    K: Turn<C, A::Kept, R>,
>(
    it: &mut I,
    p: &mut P,
    adapter: &A,
    state: &mut C,
    turn: &K,
) -> Result<Option<R>, I::Error> {
    let mut both = Beside { c: state, p };
    let answer = it.drive(&mut both, &PassTurn { adapter, turn });
    answer_within(answer)
}

/// The fold from the back of an adapter: what becomes of each item of the source, and the caller's turn on what is kept.
///
/// <details><summary>Contract</summary>
///
/// As it is proved, in [these words](crate::words):
///
/// ```text
/// requires can_next { I.ends.can_next it.old }
/// requires finite { I.contract.is_finite it.old }
/// requires callable { CallableDriving I.ends.steps
///     (FoldingTurn (A.call adapter.now) (A.outcome adapter.now) (K.turns turn.now))
///     (FoldingTakes (A.call adapter.now) (A.outcome adapter.now)
///     (A.can_pass adapter.now) (K.can_turn turn.now))
///     it.old (state.old, p.old) }
/// ensures { Driven (passing_step I.ends.steps (A.call adapter.now) (A.outcome adapter.now))
///     (K.turns turn.now) (it.old, p.old) state.old result (it.new, p.new) state.new }
/// ```
/// </details>
#[inline(always)]
pub fn drive_back_passing<
    I: DoubleEndedFallibleIterator,
    P,
    A: Pass<P, I::Item, I::Error>,
    C,
    R,
    K: Turn<C, A::Kept, R>,
>(
    it: &mut I,
    p: &mut P,
    adapter: &A,
    state: &mut C,
    turn: &K,
) -> Result<Option<R>, I::Error> {
    let mut both = Beside { c: state, p };
    let answer = it.drive_back(&mut both, &PassTurn { adapter, turn });
    answer_within(answer)
}

/// The turn of a draw by a fold of the source: it stops with what becomes of the first item that isn't left out.
pub(crate) struct PassDrawTurn<'a, A> {
    pub(crate) adapter: &'a A,
}

impl<'a, P, X, E, A: Pass<P, X, E>> Turn<P, X, Result<Option<A::Kept>, E>> for PassDrawTurn<'a, A> {
    #[inline(always)]
    fn turn(&self, state: &mut P, item: X) -> ControlFlow<Result<Option<A::Kept>, E>, ()> {
        match self.adapter.pass(state, item) {
            Outcome::Kept(y) => ControlFlow::Break(Ok(Some(y))),
            Outcome::LeftOut => ControlFlow::Continue(()),
            Outcome::Failure(e) => ControlFlow::Break(Err(e)),
            Outcome::End => ControlFlow::Break(Ok(None)),
        }
    }
}

/// The fold that counts what an adapter keeps: it adds one for each item that stays.
pub(crate) fn drive_count_passing<I: FallibleIterator, P, A: Pass<P, I::Item, I::Error>>(
    it: &mut I,
    p: &mut P,
    adapter: &A,
    number: &mut usize,
) -> Result<Option<Infallible>, I::Error> {
    let mut both = Beside { c: number, p };
    let answer = it.drive(&mut both, &PassCountTurn { adapter });
    answer_within(answer)
}

// The turn of that fold: it adds one if the item is kept.
struct PassCountTurn<'a, A> {
    adapter: &'a A,
}

impl<'a, 'b, P, X, E, A: Pass<P, X, E>> Turn<Beside<'b, usize, P>, X, Result<Option<Infallible>, E>>
    for PassCountTurn<'a, A>
{
    #[inline(always)]
    fn turn(
        &self,
        state: &mut Beside<'b, usize, P>,
        item: X,
    ) -> ControlFlow<Result<Option<Infallible>, E>, ()> {
        let kept = match self.adapter.pass(state.p, item) {
            Outcome::Kept(_) => true,
            Outcome::LeftOut => false,
            Outcome::Failure(e) => return ControlFlow::Break(Err(e)),
            Outcome::End => return ControlFlow::Break(Ok(None)),
        };
        count_if(state.c, kept);
        ControlFlow::Continue(())
    }
}

// Adds one if the item is kept. The sum has no branch.
#[inline(always)]
fn count_if(number: &mut usize, kept: bool) {
    *number += usize::from(kept);
}

// Why the source's `try_fold` stopped: the step failed, or the source, or the adapter, or that ended with this value.
enum PassStop<B, D, E> {
    Step(E),
    Failure(D),
    End(B),
}

impl<B, D, E> From<D> for PassStop<B, D, E> {
    #[inline(always)]
    fn from(e: D) -> PassStop<B, D, E> {
        PassStop::Failure(e)
    }
}

// What becomes of one item, and the step on what is kept.
#[inline(always)]
fn step_on_passed<P, X, D, A: Pass<P, X, D>, B, E, F: FnMut(B, A::Kept) -> Result<B, E>>(
    value: B,
    item: X,
    p: &mut P,
    adapter: &A,
    f: &mut F,
) -> Result<B, PassStop<B, D, E>> {
    match adapter.pass(p, item) {
        Outcome::Kept(y) => f(value, y).map_err(PassStop::Step),
        Outcome::LeftOut => Ok(value),
        Outcome::Failure(e) => Err(PassStop::Failure(e)),
        Outcome::End => Err(PassStop::End(value)),
    }
}

// What the adapter's `try_fold` returns, from what the source's returned.
#[inline(always)]
fn passed_value<B, D, E: From<D>>(folded: Result<B, PassStop<B, D, E>>) -> Result<B, E> {
    match folded {
        Ok(value) | Err(PassStop::End(value)) => Ok(value),
        Err(PassStop::Step(e)) => Err(e),
        Err(PassStop::Failure(e)) => Err(E::from(e)),
    }
}

/// `try_fold` of such an adapter, through its source's, which hands the value on.
#[inline(always)]
pub fn try_fold_passing<I, P, A, B, E, F>(
    it: &mut I,
    p: &mut P,
    adapter: &A,
    init: B,
    mut f: F,
) -> Result<B, E>
where
    I: FallibleIterator,
    A: Pass<P, I::Item, I::Error>,
    E: From<I::Error>,
    F: FnMut(B, A::Kept) -> Result<B, E>,
{
    passed_value(it.try_fold(init, |value, item| {
        step_on_passed(value, item, p, adapter, &mut f)
    }))
}

/// `try_rfold` of such an adapter, through its source's.
#[inline(always)]
pub fn try_rfold_passing<I, P, A, B, E, F>(
    it: &mut I,
    p: &mut P,
    adapter: &A,
    init: B,
    mut f: F,
) -> Result<B, E>
where
    I: DoubleEndedFallibleIterator,
    A: Pass<P, I::Item, I::Error>,
    E: From<I::Error>,
    F: FnMut(B, A::Kept) -> Result<B, E>,
{
    passed_value(it.try_rfold(init, |value, item| {
        step_on_passed(value, item, p, adapter, &mut f)
    }))
}
