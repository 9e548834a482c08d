// A side of what joins two sources, fuses each and buffers at most one item of each; and what a fold of both makes of an answer.

use crate::base::Turn;
use crate::base::sum;
use core::ops::ControlFlow;
use fallible_iterator::FallibleIterator;

// A source, and its buffered item, if there is one.
#[derive(Clone, Debug)]
pub(crate) struct JoinSide<I, X> {
    pub(crate) it: I,
    pub(crate) held: Option<X>,
}

impl<I, X> JoinSide<I, X> {
    // The source, of which nothing is buffered.
    #[inline(always)]
    pub(crate) fn new(it: I) -> JoinSide<I, X> {
        JoinSide { it, held: None }
    }
}

impl<I: FallibleIterator> JoinSide<I, I::Item> {
    // Takes the buffered item without a draw, or draws once.
    pub(crate) fn give(&mut self) -> Result<Option<I::Item>, I::Error> {
        match self.held.take() {
            Some(x) => Ok(Some(x)),
            None => self.it.next(),
        }
    }

    // The source's hint, one more on each bound if an item is buffered.
    pub(crate) fn hint(&self) -> (usize, Option<usize>) {
        let hint = self.it.size_hint();
        match &self.held {
            Some(_) => sum(hint, (1, Some(1))),
            None => hint,
        }
    }
}

// What joins two sources, and draws both.
pub(crate) trait DrawsBoth {
    type Item;

    type Error;

    // What `next` returns, and whether one side alone is drawn from then on. Only speed depends on that.
    fn next_of_both(&mut self) -> (Result<Option<Self::Item>, Self::Error>, bool);
}

// Its fold, by one loop while both sides are drawn, and by another from then on, which a compiler simplifies.
#[inline(always)]
pub(crate) fn drive_both<J: DrawsBoth, C, R, K: Turn<C, J::Item, R>>(
    join: &mut J,
    state: &mut C,
    turn: &K,
) -> Result<Option<R>, J::Error> {
    loop {
        let (answer, alone) = join.next_of_both();
        match turned(answer, state, turn) {
            ControlFlow::Continue(()) => {}
            ControlFlow::Break(answer) => return answer,
        }
        if alone {
            break;
        }
    }
    loop {
        match turned(join.next_of_both().0, state, turn) {
            ControlFlow::Continue(()) => {}
            ControlFlow::Break(answer) => return answer,
        }
    }
}

// What one turn of a fold makes of an answer: the fold goes on after an item on which the turn does, and returns otherwise.
#[inline(always)]
pub(crate) fn turned<A, E, C, R, K: Turn<C, A, R>>(
    answer: Result<Option<A>, E>,
    state: &mut C,
    turn: &K,
) -> ControlFlow<Result<Option<R>, E>, ()> {
    match answer {
        Ok(Some(x)) => match turn.turn(state, x) {
            ControlFlow::Continue(()) => ControlFlow::Continue(()),
            ControlFlow::Break(stop) => ControlFlow::Break(Ok(Some(stop))),
        },
        Ok(None) => ControlFlow::Break(Ok(None)),
        Err(e) => ControlFlow::Break(Err(e)),
    }
}
