//! The bytes of a text, each with its place.

use core::convert::Infallible;
use fallible_iterator::FallibleIterator;

/// The bytes of a text, each after its place, which is how many come before it. It never fails.
#[derive(Clone, Debug)]
pub struct PlacedBytes<'a> {
    text: &'a [u8],
    // Where the next byte is.
    place: usize,
}

impl FallibleIterator for PlacedBytes<'_> {
    type Item = (usize, u8);

    type Error = Infallible;

    /// Returns the next byte and its place.
    fn next(&mut self) -> Result<Option<(usize, u8)>, Infallible> {
        if self.text.len() <= self.place {
            return Ok(None);
        }
        let place = self.place;
        let byte = self.text[place];
        self.place += 1;
        Ok(Some((place, byte)))
    }

    fn size_hint(&self) -> (usize, Option<usize>) {
        (0, None)
    }
}

impl<'a> PlacedBytes<'a> {
    /// The bytes of a text.
    ///
    /// <details><summary>Contract</summary>
    ///
    /// As it is proved, in [these words](crate::words):
    ///
    /// ```text
    /// ensures { Lists ⟦<PlacedBytes<'a> as FallibleIterator>⟧.contract.steps result
    ///     (numbered 0 (items text.now)) }
    /// ```
    /// </details>
    pub fn new(text: &'a [u8]) -> PlacedBytes<'a> {
        PlacedBytes { text, place: 0 }
    }
}
