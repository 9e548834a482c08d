// changed: std's own, of all that it is of
// proved: 4c33b6c8
fn sum<S>(self) -> Result<S, Self::Error>
where
    S: core::iter::Sum<Self::Item>,
{
    self.iterator().sum()
}
