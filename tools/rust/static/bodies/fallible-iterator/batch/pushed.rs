// changed: no allocator is passed, and none refuses
// proved: 295dfff9
pub fn pushed<X>(items: &mut Vec<X>, item: X)
{
    items.push(item);
}
