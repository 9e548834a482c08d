// changed: no allocator is passed
// proved: 94aa057e
pub fn new(it: I) -> Unique<I>
{
    Unique {
        it,
        seen: HashSet::new(),
    }
}
