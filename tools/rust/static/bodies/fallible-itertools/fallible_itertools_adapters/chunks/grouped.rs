// changed: no allocator is passed, and none refuses
// proved: 32925f4c
fn grouped<X, K: PartialEq, E>(
    group: &mut Option<(K, Vec<X>)>,
    key: K,
    item: X,
) -> Emitted<(K, Vec<X>), Stop<E>, E>
{
    let room = match group {
        Some((of, items)) => {
            if *of == key {
                pushed(items, item);
                return None;
            }
            items.len()
        }
        None => 0,
    };
    match group.replace((key, alone(room, item))) {
        Some(whole) => one(Ok(Some(whole))),
        None => None,
    }
}
