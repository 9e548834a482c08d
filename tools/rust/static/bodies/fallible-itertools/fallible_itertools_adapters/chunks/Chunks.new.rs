// changed: no allocator is passed; `assert!(n != 0)` for what it requires
// proved: 56486aaa
pub fn new(it: I, n: usize) -> Chunks<I>
{
    assert!(n != 0);
    Chunks {
        it,
        stage: (((n, None), true), None),
    }
}
