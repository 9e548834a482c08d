// changed: into any `Default + Extend`, by the proved turns
// proved: 28a7b6d0
fn unzip<A, B, FromA, FromB>(mut self) -> Result<(FromA, FromB), Self::Error>
where
    Self: FallibleIterator<Item = (A, B)>,
    FromA: Default + Extend<A>,
    FromB: Default + Extend<B>,
{
    let mut both = (Extended(FromA::default()), Extended(FromB::default()));
    match self.drive(&mut both, &UnzipTurn) {
        Ok(None) => Ok((both.0.0, both.1.0)),
        Ok(Some(refusal)) => match refusal {},
        Err(e) => Err(e),
    }
}
