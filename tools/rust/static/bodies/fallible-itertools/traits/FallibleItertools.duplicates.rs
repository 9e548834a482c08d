// changed: no allocator is passed
// proved: 76001afd
fn duplicates(self) -> Duplicates<Self>
where
    Self::Item: Eq + Hash,
{
    Duplicates::new(self)
}
