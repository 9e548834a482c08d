// changed: no allocator is passed
// proved: 8befd496
fn chunks(self, n: usize) -> Chunks<Self>
{
    Chunks::new(self, n)
}
