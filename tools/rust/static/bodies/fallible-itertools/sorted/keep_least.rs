// changed: `push` is never refused
// proved: 6722cd6f
fn keep_least<A: Ord>(items: &mut Vec<A>, k: usize, item: A) -> Result<(), AllocError> {
    if !is_beyond(items, k, &item) {
        items.push(item);
        tidy(items, k);
    }
    Ok(())
}
