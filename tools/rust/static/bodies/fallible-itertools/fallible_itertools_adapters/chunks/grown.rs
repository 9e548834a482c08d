// changed: no allocator is passed, and none refuses
// proved: 5e47ee5f
fn grown<X>(
    n: usize,
    whole: &mut bool,
    held: &mut Option<Vec<X>>,
    item: X,
) -> usize
{
    match held {
        Some(batch) => {
            pushed(batch, item);
            batch.len()
        }
        None => {
            let room = if replace(whole, false) { n } else { n.min(4) };
            let batch = alone(room, item);
            let count = batch.len();
            *held = Some(batch);
            count
        }
    }
}
