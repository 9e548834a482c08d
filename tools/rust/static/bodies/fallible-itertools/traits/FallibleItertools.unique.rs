// changed: no allocator is passed
// proved: e96f8456
fn unique(self) -> Unique<Self>
where
    Self::Item: Clone + Eq + Hash,
{
    Unique::new(self)
}
