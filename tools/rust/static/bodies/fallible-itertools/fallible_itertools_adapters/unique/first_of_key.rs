// changed: no allocation is refused
// proved: bda3141c
fn first_of_key<X, E, K: Eq + Hash>(keys: &mut HashSet<K>, key: K, item: X) -> Outcome<X, E> {
    if keys.insert(key) {
        Outcome::Kept(item)
    } else {
        Outcome::LeftOut
    }
}
