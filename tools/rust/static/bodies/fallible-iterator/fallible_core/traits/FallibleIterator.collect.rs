// changed: into any `FromIterator`: the proved `iterator`, and std's `collect` of results
// proved: 43948e8a
fn collect<T>(self) -> Result<T, Self::Error>
where
    T: core::iter::FromIterator<Self::Item>,
{
    self.iterator().collect()
}
