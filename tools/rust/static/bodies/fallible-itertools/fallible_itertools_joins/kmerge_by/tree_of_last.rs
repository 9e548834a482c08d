// changed: no allocation fails
// proved: a428577e
fn tree_of_last<I: FallibleIterator>(sources: &mut Vec<I>, n: usize) -> MergeTree<Fuse<I>> {
    if n == 0 {
        return MergeTree::Ended;
    }
    if n == 1 {
        return match sources.pop() {
            Some(source) => MergeTree::Source(source.fuse()),
            None => MergeTree::Ended,
        };
    }
    let half = n / 2;
    let right = tree_of_last(sources, n - half);
    let left = tree_of_last(sources, half);
    MergeTree::Both(Box::new(left), None, Box::new(right), None)
}
