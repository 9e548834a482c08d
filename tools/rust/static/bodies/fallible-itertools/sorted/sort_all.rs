// changed: std's sort is never refused
// proved: 51112b71
fn sort_all<A: Ord>(items: &mut [A]) {
    items.sort();
}
