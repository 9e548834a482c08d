// changed: no allocator is passed
// proved: 03fa5755
fn unique_by<K, F>(self, f: F) -> UniqueBy<Self, K, F>
where
    K: Eq + Hash,
    F: FnMut(&Self::Item) -> Result<K, Self::Error>,
{
    UniqueBy::new(self, f)
}
