//! What adapters make of the failures of their sources.

/// What an adapter makes of one failure of its source, with the state that it keeps from failure to failure: its closure.
pub trait Fail<P, D> {
    /// What the adapter fails with.
    type Failure;

    /// Calls the closure once on the failure.
    ///
    /// <details><summary>Contract</summary>
    ///
    /// As it is proved, in [these words](crate::words):
    ///
    /// ```text
    /// requires { can_fail self.now state.old failure }
    /// ensures { call self.now state.old failure result state.new }
    /// ```
    /// </details>
    fn fail(&self, state: &mut P, failure: D) -> Self::Failure;
}

/// What such an adapter makes of one answer of its source, or of the result of a call on its source: the closure is called if that is a failure.
///
/// <details><summary>Contract</summary>
///
/// As it is proved, in [these words](crate::words):
///
/// ```text
/// requires { TakesFailure (A.can_fail adapter.now) state.old made }
/// ensures { FailingAnswer (A.call adapter.now) state.old made result state.new }
/// ```
/// </details>
#[inline(always)]
pub fn failed<C, P, D, A: Fail<P, D>>(
    made: Result<C, D>,
    state: &mut P,
    adapter: &A,
) -> Result<C, A::Failure> {
    match made {
        Ok(c) => Ok(c),
        Err(e) => Err(adapter.fail(state, e)),
    }
}
