// Folds over a std iterator through its own `try_fold` and `try_rfold`.

use crate::fallible_contract::folds::Turn;
use core::convert::Infallible;
use core::ops::ControlFlow;

// What an element of a std iterator is: an item or a failure.
pub(crate) trait Element<Z, A, E> {
    fn read(&self, element: Z) -> Result<A, E>;
}

// Each `Ok` is an item, and each `Err` a failure.
pub(crate) struct AsResult;

impl<A, E> Element<Result<A, E>, A, E> for AsResult {
    #[inline(always)]
    fn read(&self, element: Result<A, E>) -> Result<A, E> {
        element
    }
}

// Each element is an item.
pub(crate) struct AsItem;

impl<A> Element<A, A, Infallible> for AsItem {
    #[inline(always)]
    fn read(&self, element: A) -> Result<A, Infallible> {
        Ok(element)
    }
}

// The fold of a std iterator from the front.
#[inline(always)]
pub(crate) fn drive_std<
    I: core::iter::Iterator,
    A,
    E,
    M: Element<I::Item, A, E>,
    C,
    R,
    K: Turn<C, A, R>,
>(
    it: &mut I,
    elements: &M,
    state: &mut C,
    turn: &K,
) -> Result<Option<R>, E> {
    let mut answer = Ok(None);
    let _ = it.try_fold((), |(), element| {
        match turn_of_element(turn, elements, state, element) {
            Ok(()) => Some(()),
            Err(other) => {
                answer = other;
                None
            }
        }
    });
    answer
}

// The fold of a std iterator from the back.
#[inline(always)]
pub(crate) fn drive_back_std<
    I: core::iter::DoubleEndedIterator,
    A,
    E,
    M: Element<I::Item, A, E>,
    C,
    R,
    K: Turn<C, A, R>,
>(
    it: &mut I,
    elements: &M,
    state: &mut C,
    turn: &K,
) -> Result<Option<R>, E> {
    let mut answer = Ok(None);
    let _ = it.try_rfold((), |(), element| {
        match turn_of_element(turn, elements, state, element) {
            Ok(()) => Some(()),
            Err(other) => {
                answer = other;
                None
            }
        }
    });
    answer
}

// One turn of std's fold: the caller's turn on an item. A failure stops the fold.
#[inline(always)]
fn turn_of_element<Z, A, E, M: Element<Z, A, E>, C, R, K: Turn<C, A, R>>(
    turn: &K,
    elements: &M,
    state: &mut C,
    element: Z,
) -> Result<(), Result<Option<R>, E>> {
    match elements.read(element) {
        Ok(x) => match turn.turn(state, x) {
            ControlFlow::Continue(()) => Ok(()),
            ControlFlow::Break(stop) => Err(Ok(Some(stop))),
        },
        Err(e) => Err(Err(e)),
    }
}
