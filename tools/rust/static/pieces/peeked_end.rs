
// Whether `peek` holds the end that it drew. What a `Peekable` says of itself goes before this, which is of the original's.
#[allow(dead_code)]
trait HoldsEnds {
    const HOLDS_ENDS: bool = false;
}

impl<I: FallibleIterator> HoldsEnds for Peekable<I> {}
