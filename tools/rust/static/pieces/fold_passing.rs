
// Why the source's `try_fold` stopped: the step failed, or the source, or the adapter, or that ended with this value.
enum PassStop<B, D, E> {
    Step(E),
    Failure(D),
    End(B),
}

impl<B, D, E> From<D> for PassStop<B, D, E> {
    #[inline(always)]
    fn from(e: D) -> PassStop<B, D, E> {
        PassStop::Failure(e)
    }
}

// What becomes of one item, and the step on what is kept.
#[inline(always)]
fn step_on_passed<P, X, D, A: Pass<P, X, D>, B, E, F: FnMut(B, A::Kept) -> Result<B, E>>(
    value: B,
    item: X,
    p: &mut P,
    adapter: &A,
    f: &mut F,
) -> Result<B, PassStop<B, D, E>> {
    match adapter.pass(p, item) {
        Outcome::Kept(y) => f(value, y).map_err(PassStop::Step),
        Outcome::LeftOut => Ok(value),
        Outcome::Failure(e) => Err(PassStop::Failure(e)),
        Outcome::End => Err(PassStop::End(value)),
    }
}

// What the adapter's `try_fold` returns, from what the source's returned.
#[inline(always)]
fn passed_value<B, D, E: From<D>>(folded: Result<B, PassStop<B, D, E>>) -> Result<B, E> {
    match folded {
        Ok(value) | Err(PassStop::End(value)) => Ok(value),
        Err(PassStop::Step(e)) => Err(e),
        Err(PassStop::Failure(e)) => Err(E::from(e)),
    }
}

/// `try_fold` of such an adapter, through its source's, which hands the value on.
#[inline(always)]
pub fn try_fold_passing<I, P, A, B, E, F>(it: &mut I, p: &mut P, adapter: &A, init: B, mut f: F) -> Result<B, E>
where
    I: FallibleIterator,
    A: Pass<P, I::Item, I::Error>,
    E: From<I::Error>,
    F: FnMut(B, A::Kept) -> Result<B, E>,
{
    passed_value(it.try_fold(init, |value, item| {
        step_on_passed(value, item, p, adapter, &mut f)
    }))
}

/// `try_rfold` of such an adapter, through its source's.
#[inline(always)]
pub fn try_rfold_passing<I, P, A, B, E, F>(it: &mut I, p: &mut P, adapter: &A, init: B, mut f: F) -> Result<B, E>
where
    I: DoubleEndedFallibleIterator,
    A: Pass<P, I::Item, I::Error>,
    E: From<I::Error>,
    F: FnMut(B, A::Kept) -> Result<B, E>,
{
    passed_value(it.try_rfold(init, |value, item| {
        step_on_passed(value, item, p, adapter, &mut f)
    }))
}
