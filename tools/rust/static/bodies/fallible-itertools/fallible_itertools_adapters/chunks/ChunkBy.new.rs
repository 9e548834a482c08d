// changed: no allocator is passed
// proved: f7095deb
pub fn new(it: I, key: F) -> ChunkBy<I, K, F>
{
    ChunkBy {
        it,
        stage: ((None, key), None),
    }
}
