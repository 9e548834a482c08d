// changed: no allocation fails; of whatever yields the sources
// proved: 53e1785e
pub fn kmerge<S>(sources: S) -> KMerge<S::Item>
where
    S: IntoIterator,
    S::Item: FallibleIterator,
    <S::Item as FallibleIterator>::Item: PartialOrd,
{
    let mut rest: Vec<S::Item> = sources.into_iter().collect();
    let n = rest.len();
    let tree = tree_of_last(&mut rest, n);
    KMerge { tree }
}
