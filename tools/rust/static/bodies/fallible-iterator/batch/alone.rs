// changed: no allocator is passed, and none refuses
// proved: ce63b922
pub fn alone<X>(room: usize, item: X) -> Vec<X>
{
    let mut items = Vec::with_capacity(room.min(1024));
    pushed(&mut items, item);
    items
}
