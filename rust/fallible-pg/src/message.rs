//! A message.

use alloc::vec::Vec;
/// A message of a server: its tag, its length of four bytes, which counts these and the body, and the body.
#[derive(Clone, Debug, PartialEq, Eq)]
pub struct Message {
    bytes: Vec<u8>,
}

impl Message {
    // The message that bytes are.
    pub(crate) fn new(bytes: Vec<u8>) -> Message {
        Message { bytes }
    }

    /// All its bytes: the tag, the four of the length and the body.
    ///
    /// <details><summary>Contract</summary>
    ///
    /// As it is proved, in [these words](crate::words):
    ///
    /// ```text
    /// ensures { result.now ≡ self.now.bytes.items }
    /// ```
    /// </details>
    pub fn bytes(&self) -> &[u8] {
        self.bytes.as_slice()
    }

    /// Which kind of message it is.
    ///
    /// <details><summary>Contract</summary>
    ///
    /// As it is proved, in [these words](crate::words):
    ///
    /// ```text
    /// ensures { result ≡ slice_index self.now.bytes.items 0 }
    /// ```
    /// </details>
    pub fn tag(&self) -> u8 {
        self.bytes()[0]
    }

    /// What follows the length.
    ///
    /// <details><summary>Contract</summary>
    ///
    /// As it is proved, in [these words](crate::words):
    ///
    /// ```text
    /// ensures { result.now ≡ drop 5 self.now.bytes.items }
    /// ```
    /// </details>
    pub fn body(&self) -> &[u8] {
        &self.bytes()[5..]
    }
}
