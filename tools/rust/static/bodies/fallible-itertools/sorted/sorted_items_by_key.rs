// changed: std's sort is never refused
// proved: a472feda
pub fn sorted_items_by_key<A, E, K: Ord, F: FnMut(&A) -> K>(
    gathered: Result<Vec<A>, E>,
    f: F,
) -> Result<Vec<A>, E>
{
    let mut items = match gathered {
        Ok(items) => items,
        Err(fault) => return Err(fault),
    };
    items.sort_by_key(f);
    Ok(items)
}
