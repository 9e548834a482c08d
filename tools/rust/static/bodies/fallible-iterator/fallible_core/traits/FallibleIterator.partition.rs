// changed: into any `Default + Extend`, by the proved turns
// proved: 658af60e
fn partition<B, F>(mut self, f: F) -> Result<(B, B), Self::Error>
where
    B: Default + Extend<Self::Item>,
    F: FnMut(&Self::Item) -> Result<bool, Self::Error>,
{
    let mut state = (f, (Extended(B::default()), Extended(B::default())));
    let answer = self.drive(&mut state, &PartitionTurn);
    let (_, sides) = state;
    match answer {
        Ok(None) => Ok((sides.0.0, sides.1.0)),
        Ok(Some(Fault::Source(e))) => Err(e),
        Ok(Some(Fault::Memory(refused))) => match refused {},
        Err(e) => Err(e),
    }
}
