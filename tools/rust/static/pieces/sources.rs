/// Sources that the original has from 0.3 on.
pub trait IteratorExt: Iterator + Sized {
    /// Each element is an item.
    fn into_fallible(self) -> Convert<Map<Self, fn(Self::Item) -> Result<Self::Item, Infallible>>> {
        convert(self.map(Ok))
    }
}

impl<I: Iterator> IteratorExt for I {}

/// Yields clones of an item, without an end.
pub fn repeat<T: Clone, E>(item: T) -> Convert<impl Iterator<Item = Result<T, E>> + Clone> {
    convert(std::iter::repeat_with(move || Ok(item.clone())))
}
