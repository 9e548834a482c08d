// changed: the fold of the proved `collect`, into any `Default + Extend`
// proved: 5aa220b3
fn partition_map<L, R, F, A, B>(self, f: F) -> Result<(L, R), Self::Error>
where
    L: Default + Extend<A>,
    R: Default + Extend<B>,
    F: FnMut(Self::Item) -> Result<Either<A, B>, Self::Error>,
{
    let mut sides = (Extended(L::default()), Extended(R::default()));
    whole(self.map(f).drive(&mut sides, &CollectTurn))?;
    Ok((sides.0.0, sides.1.0))
}
