// changed: the fold of the proved `collect`, into an empty `Vec`
// proved: afce2824
fn sorted_unstable_by_key<K, F>(
    self,
    f: F,
) -> Result<Vec<Self::Item>, Self::Error>
where
    K: Ord,
    F: FnMut(&Self::Item) -> K,
{
    sorted::items_in_order_by_key(gathered(self), f)
}
