// changed: the fold of the proved `collect`, into an empty `Vec`
// proved: 841d1990
fn sorted_unstable(self) -> Result<Vec<Self::Item>, Self::Error>
where
    Self::Item: Ord,
{
    sorted::items_in_order(gathered(self))
}
