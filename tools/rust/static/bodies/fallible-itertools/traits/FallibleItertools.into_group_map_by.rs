// changed: no allocator is passed
// proved: 7cf18ba7
fn into_group_map_by<K, F>(self, f: F) -> Result<HashMap<K, Vec<Self::Item>>, Self::Error>
where
    K: Eq + Hash,
    F: FnMut(&Self::Item) -> Result<K, Self::Error>,
{
    Keyed { it: self, f }.into_group_map()
}
