// changed: the fold of the proved `collect`, into an empty map
// proved: f906c5b6
fn counts(mut self) -> Result<HashMap<Self::Item, usize>, Self::Error>
where
    Self::Item: Eq + Hash,
{
    let mut made = Tally {
        counts: HashMap::new(),
    };
    whole(self.drive(&mut made, &CollectTurn))?;
    Ok(made.counts)
}
