
/// Why a fold stopped that a caller's own type may have written: a turn stopped it, or it failed.
#[doc(hidden)]
pub enum Stop<R, E> {
    Turn(R),
    Failure(E),
}

impl<R, E> From<E> for Stop<R, E> {
    #[inline(always)]
    fn from(e: E) -> Stop<R, E> {
        Stop::Failure(e)
    }
}
