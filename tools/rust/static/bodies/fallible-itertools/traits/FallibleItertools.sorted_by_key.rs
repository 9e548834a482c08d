// changed: the fold of the proved `collect`, into an empty `Vec`
// proved: b504a4ce
fn sorted_by_key<K, F>(
    self,
    f: F,
) -> Result<Vec<Self::Item>, Self::Error>
where
    K: Ord,
    F: FnMut(&Self::Item) -> K,
{
    sorted::sorted_items_by_key(gathered(self), f)
}
