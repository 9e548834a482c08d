// changed: `push_back` is never refused
// proved: d375532d
fn put_last<A>(items: &mut VecDeque<A>, item: A) -> Result<(), AllocError>
{
    items.push_back(item);
    Ok(())
}
