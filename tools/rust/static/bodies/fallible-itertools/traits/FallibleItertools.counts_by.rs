// changed: no allocator is passed
// proved: 1ba20200
fn counts_by<K, F>(self, f: F) -> Result<HashMap<K, usize>, Self::Error>
where
    K: Eq + Hash,
    F: FnMut(Self::Item) -> Result<K, Self::Error>,
{
    self.map(f).counts()
}
