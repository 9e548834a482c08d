//! What takes JSON texts, and has the memory for them.

use crate::fault::JsonFault;
use crate::texts::Texts;
use alloc::vec::Vec;
use program_io::memory::{AllocError, Fault, Global, TryVec};

// How many bytes a buffer has at first.
const BUFFER: usize = 65536;

/// Something that makes JSON texts in memory, a part at a time.
pub trait MakeTexts {
    /// Takes what no further byte could change. How many of the bytes that is; or the first fault.
    ///
    /// Requires that each count of the texts has room for twice as many bytes, and that these begin with what the last call left.
    ///
    /// <details><summary>Contract</summary>
    ///
    /// As it is proved, in [these words](crate::words):
    ///
    /// ```text
    /// requires fits { Fits texts.old (2 * length bytes.now) }
    /// requires left { BeginWithLeft texts.old.seen bytes.now }
    /// ensures taken { IfOk result (λ taken. Takes texts.old bytes.now taken texts.new) }
    /// ensures fault { (fault : JsonFault) → result ≡ Err (Source fault)
    ///     → FindsFault texts.old bytes.now fault texts.new }
    /// ensures memory { (error : AllocError) → result ≡ Err (Memory error) → refused self.now }
    /// ```
    /// </details>
    fn push(&self, texts: &mut Texts, bytes: &[u8]) -> Result<usize, Fault<JsonFault>>;

    /// Takes the last bytes, and ends the text that is begun; or the first fault.
    ///
    /// Requires that each count of the texts has room for twice as many bytes.
    ///
    /// <details><summary>Contract</summary>
    ///
    /// As it is proved, in [these words](crate::words):
    ///
    /// ```text
    /// requires { Fits texts.old (2 * length bytes.now) }
    /// ensures all { OnOk result (TakesAll texts.old bytes.now texts.new) }
    /// ensures fault { (fault : JsonFault) → result ≡ Err (Source fault)
    ///     → FindsLastFault texts.old bytes.now fault texts.new }
    /// ensures memory { (error : AllocError) → result ≡ Err (Memory error) → refused self.now }
    /// ```
    /// </details>
    fn finish(&self, texts: &mut Texts, bytes: &[u8]) -> Result<(), Fault<JsonFault>>;

    /// Makes room in a buffer after the first `held` bytes, which stay.
    ///
    /// <details><summary>Contract</summary>
    ///
    /// As it is proved, in [these words](crate::words):
    ///
    /// ```text
    /// requires { held ≤ length buffer.old.items }
    /// ensures room { OnOk result (held < length buffer.new.items) }
    /// ensures same { take held buffer.new.items ≡ take held buffer.old.items }
    /// ensures memory { OnErr result (refused self.now) }
    /// ```
    /// </details>
    fn widen(&self, buffer: &mut Vec<u8>, held: usize) -> Result<(), AllocError>;
}

impl MakeTexts for Global {
    fn push(&self, texts: &mut Texts, bytes: &[u8]) -> Result<usize, Fault<JsonFault>> {
        texts.push(bytes)
    }

    fn finish(&self, texts: &mut Texts, bytes: &[u8]) -> Result<(), Fault<JsonFault>> {
        texts.finish(bytes)
    }

    fn widen(&self, buffer: &mut Vec<u8>, held: usize) -> Result<(), AllocError> {
        if held < buffer.len() {
            return Ok(());
        }
        let more = if held < BUFFER { BUFFER } else { held };
        match buffer.try_resize(held.saturating_add(more), 0) {
            Ok(()) => Ok(()),
            // No memory: a vector is resized unless an allocation fails.
            Err(_) => Err(AllocError),
        }
    }
}
