//! The adapter that merges the items of many sources by their order.

use crate::fallible_itertools_joins::kmerge_by::{MergeTree, draw_into};
use fallible_iterator::{FallibleIterator, Fuse};

/// The items of many sources, each fused. Of two items the lesser goes first, and of equal ones the earlier source's. A failure of a source is yielded, and loses nothing that is buffered.
#[must_use = "an iterator draws nothing until it is asked"]
pub struct KMerge<I: FallibleIterator> {
    pub(crate) tree: MergeTree<Fuse<I>>,
}

impl<I: FallibleIterator> FallibleIterator for KMerge<I>
where
    I::Item: PartialOrd,
{
    type Item = I::Item;

    type Error = I::Error;

    /// Draws each source of which nothing is buffered, in order, up to the first that fails. Then it compares at each branch where both sides have an item, and yields the item that goes first; the others stay buffered. Each fold draws so too.
    fn next(&mut self) -> Result<Option<I::Item>, I::Error> {
        let mut in_order = |x: &I::Item, y: &I::Item| -> Result<bool, I::Error> { Ok(x <= y) };
        let mut place = None;
        draw_into(&mut self.tree, &mut place, &mut in_order)?;
        Ok(place)
    }

    fn size_hint(&self) -> (usize, Option<usize>) {
        (0, None)
    }
}

impl<I: FallibleIterator + Clone> Clone for KMerge<I>
where
    I::Item: Clone,
{
    fn clone(&self) -> Self {
        KMerge {
            tree: self.tree.clone(),
        }
    }
}

impl<I: FallibleIterator + core::fmt::Debug> core::fmt::Debug for KMerge<I>
where
    I::Item: core::fmt::Debug,
{
    fn fmt(&self, f: &mut core::fmt::Formatter<'_>) -> core::fmt::Result {
        f.debug_struct("KMerge").field("tree", &self.tree).finish()
    }
}
