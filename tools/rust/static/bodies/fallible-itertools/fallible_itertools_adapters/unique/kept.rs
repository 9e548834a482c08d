// changed: neither a clone nor `insert` is refused
// proved: 7ef8d74a
fn kept<X: Clone + Eq + Hash, E>(
    seen: &mut HashSet<X>,
    item: X,
) -> Outcome<X, E>
{
    seen.insert(item.clone());
    Outcome::Kept(item)
}
