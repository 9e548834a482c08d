// changed: the fold of the proved `collect`, into an empty `Vec`
// proved: 43ef12c6
fn sorted_by<F>(self, f: F) -> Result<Vec<Self::Item>, Self::Error>
where
    F: FnMut(&Self::Item, &Self::Item) -> Ordering,
{
    sorted::sorted_items_by(gathered(self), f)
}
