// changed: std's sort is never refused
// proved: 113c42c6
pub fn sorted_items<A: Ord, E>(
    gathered: Result<Vec<A>, E>,
) -> Result<Vec<A>, E>
{
    let mut items = match gathered {
        Ok(items) => items,
        Err(fault) => return Err(fault),
    };
    items.sort();
    Ok(items)
}
