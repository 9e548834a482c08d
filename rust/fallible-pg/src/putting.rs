//! What takes bytes, and what is known of it where it refuses some.

#[cfg(feature = "std")]
use program_io::writing::WriteText;
#[cfg(feature = "std")]
use std::io;

/// What takes bytes, as every writer does, and every buffer.
#[cfg(feature = "std")]
pub trait PutBytes: Sized {
    /// Puts bytes after those that it holds.
    ///
    /// <details><summary>Contract</summary>
    ///
    /// As it is proved, in [these words](crate::words):
    ///
    /// ```text
    /// ensures whole { OnOk result
    ///     (Appends (written self.old) (written self.new) bytes.now) }
    /// ensures stops { OnErr result
    ///     (StopsWithin written refuses self.old self.new bytes.now) }
    /// ```
    /// </details>
    fn put_bytes(&mut self, bytes: &[u8]) -> io::Result<()>;
}

#[cfg(feature = "std")]
impl<W: WriteText> PutBytes for W {
    fn put_bytes(&mut self, bytes: &[u8]) -> io::Result<()> {
        self.write_bytes(bytes)
    }
}
