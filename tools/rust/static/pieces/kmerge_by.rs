

impl<I: FallibleIterator + Clone, F: Clone> Clone for KMergeBy<I, F>
where
    I::Item: Clone,
{
    fn clone(&self) -> Self {
        KMergeBy {
            tree: self.tree.clone(),
            f: self.f.clone(),
        }
    }
}

impl<I: FallibleIterator + core::fmt::Debug, F: core::fmt::Debug> core::fmt::Debug for KMergeBy<I, F>
where
    I::Item: core::fmt::Debug,
{
    fn fmt(&self, f: &mut core::fmt::Formatter<'_>) -> core::fmt::Result {
        let mut shown = f.debug_struct("KMergeBy");
        shown.field("tree", &self.tree).field("f", &self.f).finish()
    }
}
