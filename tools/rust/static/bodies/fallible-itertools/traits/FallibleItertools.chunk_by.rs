// changed: no allocator is passed
// proved: 7054ab28
fn chunk_by<K, F>(self, key: F) -> ChunkBy<Self, K, F>
where
    K: PartialEq,
    F: FnMut(&Self::Item) -> Result<K, Self::Error>,
{
    ChunkBy::new(self, key)
}
