// changed: no allocator is passed
// proved: 25174609
pub fn new(it: I) -> Duplicates<I>
{
    Duplicates {
        it,
        came: HashMap::new(),
    }
}
