// changed: the fold of the proved `collect`, into an empty `Vec`
// proved: 4264b76e
fn sorted(self) -> Result<Vec<Self::Item>, Self::Error>
where
    Self::Item: Ord,
{
    sorted::sorted_items(gathered(self))
}
