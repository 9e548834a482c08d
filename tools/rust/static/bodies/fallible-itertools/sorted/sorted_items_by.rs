// changed: std's sort is never refused
// proved: 00e37d18
pub fn sorted_items_by<A, E, F: FnMut(&A, &A) -> Ordering>(
    gathered: Result<Vec<A>, E>,
    f: F,
) -> Result<Vec<A>, E>
{
    let mut items = match gathered {
        Ok(items) => items,
        Err(fault) => return Err(fault),
    };
    items.sort_by(f);
    Ok(items)
}
