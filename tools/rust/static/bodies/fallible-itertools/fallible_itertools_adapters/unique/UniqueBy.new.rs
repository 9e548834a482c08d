// changed: no allocator is passed
// proved: f5bac2cf
pub fn new(it: I, f: F) -> UniqueBy<I, K, F>
{
    UniqueBy {
        it,
        keying: (HashSet::new(), f),
    }
}
