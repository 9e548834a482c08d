

impl<I: FallibleIterator + Clone> Clone for KMerge<I>
where
    I::Item: Clone,
{
    fn clone(&self) -> Self {
        KMerge {
            tree: self.tree.clone(),
        }
    }
}

impl<I: FallibleIterator + core::fmt::Debug> core::fmt::Debug for KMerge<I>
where
    I::Item: core::fmt::Debug,
{
    fn fmt(&self, f: &mut core::fmt::Formatter<'_>) -> core::fmt::Result {
        f.debug_struct("KMerge").field("tree", &self.tree).finish()
    }
}
