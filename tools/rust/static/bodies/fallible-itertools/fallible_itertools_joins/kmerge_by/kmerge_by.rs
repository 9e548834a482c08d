// changed: no allocation fails; of whatever yields the sources
// proved: a439cab6
pub fn kmerge_by<S, F>(sources: S, f: F) -> KMergeBy<S::Item, F>
where
    S: IntoIterator,
    S::Item: FallibleIterator,
    F: FnMut(
        &<S::Item as FallibleIterator>::Item,
        &<S::Item as FallibleIterator>::Item,
    ) -> Result<bool, <S::Item as FallibleIterator>::Error>,
{
    let mut rest: Vec<S::Item> = sources.into_iter().collect();
    let n = rest.len();
    let tree = tree_of_last(&mut rest, n);
    KMergeBy { tree, f }
}
