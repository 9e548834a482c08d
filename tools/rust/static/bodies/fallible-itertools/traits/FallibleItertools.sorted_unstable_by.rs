// changed: the fold of the proved `collect`, into an empty `Vec`
// proved: 65f84874
fn sorted_unstable_by<F>(
    self,
    f: F,
) -> Result<Vec<Self::Item>, Self::Error>
where
    F: FnMut(&Self::Item, &Self::Item) -> Ordering,
{
    sorted::items_in_order_by(gathered(self), f)
}
