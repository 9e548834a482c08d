// changed: no allocator is passed; nothing is refused
// proved: 896bf716
fn k_smallest(mut self, k: usize) -> Result<Vec<Self::Item>, Self::Error>
where
    Self::Item: Ord,
{
    let mut kept = Vec::new();
    whole(self.drive(&mut kept, &sorted::SmallestTurn { k }))?;
    sorted::cut(&mut kept, k);
    Ok(kept)
}
