// changed: no allocator is passed
// proved: 59fe5249
fn all_unique(&mut self) -> Result<bool, Self::Error>
where
    Self::Item: Eq + Hash,
{
    let mut seen = HashSet::new();
    let answer = self.drive(&mut seen, &AllUniqueTurn);
    unique_or_fault(answer)
}
