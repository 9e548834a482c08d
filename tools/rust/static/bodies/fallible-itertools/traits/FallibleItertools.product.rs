// changed: std's own, of all that it is of
// proved: 8d9df24c
fn product<S>(self) -> Result<S, Self::Error>
where
    S: core::iter::Product<Self::Item>,
{
    self.iterator().product()
}
