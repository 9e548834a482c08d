//! Buffers for the text of a row.

#[cfg(feature = "std")]
use crate::putting::PutBytes;
use crate::rows::Row;
use crate::text::Format;
#[cfg(feature = "std")]
use crate::text::put_row;
use alloc::vec::Vec;
use program_io::memory::TryVec;
#[cfg(feature = "std")]
use std::io;

/// A buffer for the text of a row.
#[cfg(feature = "std")]
pub trait HoldText: PutBytes {
    /// Lets go what it holds.
    ///
    /// <details><summary>Contract</summary>
    ///
    /// As it is proved, in [these words](crate::words):
    ///
    /// ```text
    /// ensures { Self.written self.new ≡ Some [] }
    /// ```
    /// </details>
    fn let_go(&mut self);

    /// The text that it holds.
    ///
    /// <details><summary>Contract</summary>
    ///
    /// As it is proved, in [these words](crate::words):
    ///
    /// ```text
    /// ensures { Self.written self.now ≡ Some result.now }
    /// ```
    /// </details>
    fn held(&self) -> &[u8];

    /// Puts the text of a row, as `write_row` writes it, in the place of what it holds. Whether there was room.
    ///
    /// <details><summary>Contract</summary>
    ///
    /// As it is proved, in [these words](crate::words):
    ///
    /// ```text
    /// ensures text { result ≡ true → Self.written self.new
    ///     ≡ Some (row_text (form_of format.entry) (message_bytes row.now.message)) }
    /// ensures no_room { result ≡ false → LacksRoom Self.written Self.refuses
    ///     (row_text (form_of format.entry) (message_bytes row.now.message)) }
    /// ```
    /// </details>
    fn hold_row(&mut self, row: &Row, format: Format<'_>) -> bool {
        self.let_go();
        put_row(row, format, self).is_ok()
    }
}

/// A buffer in memory.
#[derive(Debug)]
pub struct RowText {
    bytes: Vec<u8>,
}

impl RowText {
    /// A buffer that holds nothing. It allocates nothing.
    pub fn new() -> RowText {
        RowText { bytes: Vec::new() }
    }
}

#[cfg(feature = "std")]
impl PutBytes for RowText {
    fn put_bytes(&mut self, bytes: &[u8]) -> io::Result<()> {
        self.bytes.try_extend_from_slice(bytes)?;
        Ok(())
    }
}

#[cfg(feature = "std")]
impl HoldText for RowText {
    fn let_go(&mut self) {
        self.bytes.clear();
    }

    fn held(&self) -> &[u8] {
        self.bytes.as_slice()
    }
}
