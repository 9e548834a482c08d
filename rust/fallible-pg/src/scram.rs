//! The words of SCRAM-SHA-256 (RFC 5802 and RFC 7677), over a hash that is handed in.

use crate::base64::{base64, from_base64};
use crate::sending::{Unsent, message_of};
use crate::strings::before;
use alloc::vec::Vec;
use core::str::from_utf8;
use program_io::memory::TryVec;
use program_io::numbers::number_of;

/// SHA-256, and what is made of it.
pub trait Hash {
    /// The hash of bytes.
    ///
    /// <details><summary>Contract</summary>
    ///
    /// As it is proved, in [these words](crate::words):
    ///
    /// ```text
    /// ensures { result ≡ hash bytes.now }
    /// ```
    /// </details>
    fn hash(&self, bytes: &[u8]) -> [u8; 32];

    /// The HMAC of a message, by a key.
    ///
    /// <details><summary>Contract</summary>
    ///
    /// As it is proved, in [these words](crate::words):
    ///
    /// ```text
    /// ensures { result ≡ hmac key.now message.now }
    /// ```
    /// </details>
    fn hmac(&self, key: &[u8], message: &[u8]) -> [u8; 32];

    /// What a password is stretched to, by a salt and a number of rounds: PBKDF2 with this HMAC.
    ///
    /// <details><summary>Contract</summary>
    ///
    /// As it is proved, in [these words](crate::words):
    ///
    /// ```text
    /// ensures { result ≡ stretch password.now salt.now rounds }
    /// ```
    /// </details>
    fn stretch(&self, password: &[u8], salt: &[u8], rounds: u64) -> [u8; 32];
}

// Texts one after the other.
fn concatenated(a: &[u8], b: &[u8], c: &[u8]) -> Result<Vec<u8>, Unsent> {
    let mut text = Vec::new();
    text.try_extend_from_slice(a)?;
    text.try_extend_from_slice(b)?;
    text.try_extend_from_slice(c)?;
    Ok(text)
}

/// What a client sends first, by a text of its own that no one can guess, without a comma. It fails with `Long` only above 1,073,741,792 bytes.
///
/// <details><summary>Contract</summary>
///
/// As it is proved, in [these words](crate::words):
///
/// ```text
/// ensures { MatchResult result
///     (λ sent. (vec_items sent ≡ sent_first nonce.now) × (length nonce.now ≤ 1073741792))
///     (λ why. why ≡ Long → 1073741792 < length nonce.now) }
/// ```
/// </details>
pub fn scram_first_message(nonce: &[u8]) -> Result<Vec<u8>, Unsent> {
    let words = concatenated(b"n,,", b"n=,r=", nonce)?;
    if words.len() > 1_073_741_800 {
        return Err(Unsent::Long);
    }
    let size = (words.len() as u32).to_be_bytes();
    let body = concatenated(b"SCRAM-SHA-256\0", &size, &words)?;
    message_of(b"p", &body)
}

// The parts of what a server asks.
#[derive(Clone, Copy, Debug)]
struct Question<'a> {
    // the client's text and the server's
    nonce: &'a [u8],
    // the salt, in base64
    salt: &'a [u8],
    // how many rounds, in digits
    digits: &'a [u8],
}

// The bytes after so many; none where there are fewer.
fn beyond(bytes: &[u8], count: usize) -> &[u8] {
    if count <= bytes.len() {
        &bytes[count..]
    } else {
        &[]
    }
}

// The parts that a text has, if a server asks well by it. Whether it does is for the caller to see.
fn parts_of(asked: &[u8]) -> Question<'_> {
    let words = beyond(asked, 2);
    let nonce = before(b',', words);
    let salted = beyond(beyond(words, nonce.len()), 3);
    let salt = before(b',', salted);
    let digits = beyond(beyond(salted, salt.len()), 3);
    Question {
        nonce,
        salt,
        digits,
    }
}

// Whether a text that a server asks has these parts.
fn has_parts(asked: &[u8], parts: Question<'_>) -> Result<bool, Unsent> {
    let last = concatenated(parts.salt, b",i=", parts.digits)?;
    let rest = concatenated(parts.nonce, b",s=", last.as_slice())?;
    let text = concatenated(b"r", b"=", rest.as_slice())?;
    Ok(text.as_slice() == asked)
}

// The number that a text writes, if it writes one.
fn number_in(text: &[u8]) -> Option<u64> {
    match from_utf8(text) {
        Ok(text) => number_of(text),
        Err(_) => None,
    }
}

// The number of rounds that digits write, if they write one.
fn rounds_of(digits: &[u8]) -> Option<u64> {
    if digits.len() >= 1 && digits[0] > b'0' {
        number_in(digits)
    } else {
        None
    }
}

// Whether a text begins with another and goes on.
fn goes_on_from(text: &[u8], start: &[u8]) -> bool {
    start.len() < text.len() && &text[..start.len()] == start
}

// The first 32 bytes of two texts, joined by exclusive or.
fn xored(a: &[u8], b: &[u8]) -> Result<Vec<u8>, Unsent> {
    let mut both = Vec::new();
    for place in 0..32 {
        both.try_extend_from_slice(&[a[place] ^ b[place]])?;
    }
    Ok(both)
}

// All that was said, of which both prove that they know the password.
fn said_words(own: &[u8], asked: &[u8], nonce: &[u8]) -> Result<Vec<u8>, Unsent> {
    let first = concatenated(b"n=,r=", own, b",")?;
    let last = concatenated(b",", b"c=biws,r=", nonce)?;
    concatenated(&first, asked, &last)
}

// What the client answers.
fn answer_words<H: Hash>(
    hash: &H,
    nonce: &[u8],
    stretched: &[u8],
    said: &[u8],
) -> Result<Vec<u8>, Unsent> {
    let key = hash.hmac(stretched, b"Client Key");
    let stored = hash.hash(&key);
    let signature = hash.hmac(&stored, said);
    let proof = xored(&key, &signature)?;
    let text = base64(&proof)?;
    let unproved = concatenated(b"c=biws,r=", nonce, &[])?;
    concatenated(&unproved, b",p=", &text)
}

// What the server says last, where it knows the password too.
fn last_words<H: Hash>(hash: &H, stretched: &[u8], said: &[u8]) -> Result<Vec<u8>, Unsent> {
    let key = hash.hmac(stretched, b"Server Key");
    let signature = hash.hmac(&key, said);
    let text = base64(&signature)?;
    concatenated(b"v=", &text, &[])
}

/// A client's answer to what a server asks, and by which words the server proves that it knows the password too.
#[derive(Debug)]
pub struct Answer {
    words: Vec<u8>,
    wanted: Vec<u8>,
}

/// The answer to what a server asks, after the client sent a text of its own first; `None` only where the server doesn't ask well: in other words, with a number of rounds that is none or begins with a 0 or a plus, or by a text that adds nothing to the client's, doesn't begin with it, or has a comma. It never fails with `Long`.
///
/// <details><summary>Contract</summary>
///
/// As it is proved, in [these words](crate::words):
///
/// ```text
/// ensures { MatchResult result (λ found. MatchOption found
///     ((nonce salt digits : List ℕ) (rounds : ℕ) → ¬ (Asks own.now asked.now nonce salt digits rounds))
///     (λ answer. Answers H.hash H.hmac H.stretch password.now own.now asked.now
///     (answer_says answer) (answer_wants answer))) (λ why. why ≡ Memory) }
/// ```
/// </details>
pub fn answer_of<H: Hash>(
    hash: &H,
    password: &[u8],
    own: &[u8],
    asked: &[u8],
) -> Result<Option<Answer>, Unsent> {
    let parts = parts_of(asked);
    let salt = match from_base64(parts.salt)? {
        Some(salt) => salt,
        _ => {
            return Ok(None);
        }
    };
    let rounds = match rounds_of(parts.digits) {
        Some(rounds) => rounds,
        _ => {
            return Ok(None);
        }
    };
    if !has_parts(asked, parts)? || !goes_on_from(parts.nonce, own) {
        return Ok(None);
    }
    let stretched = hash.stretch(password, &salt, rounds);
    let said = said_words(own, asked, parts.nonce)?;
    let words = answer_words(hash, parts.nonce, &stretched, &said)?;
    let wanted = last_words(hash, &stretched, &said)?;
    Ok(Some(Answer { words, wanted }))
}

impl Answer {
    /// The message that says it. It fails with `Long` only above 1,073,741,819 bytes.
    ///
    /// <details><summary>Contract</summary>
    ///
    /// As it is proved, in [these words](crate::words):
    ///
    /// ```text
    /// ensures { MatchResult result
    ///     (λ sent. (vec_items sent ≡ sent_message (codes "p") (answer_says self.now))
    ///     × (length (answer_says self.now) ≤ 1073741819))
    ///     (λ why. why ≡ Long → 1073741819 < length (answer_says self.now)) }
    /// ```
    /// </details>
    pub fn message(&self) -> Result<Vec<u8>, Unsent> {
        message_of(b"p", &self.words)
    }

    /// Whether the server proves by these words that it knows the password.
    ///
    /// <details><summary>Contract</summary>
    ///
    /// As it is proved, in [these words](crate::words):
    ///
    /// ```text
    /// ensures { result ≡ bytes_eq words.now (answer_wants self.now) }
    /// ```
    /// </details>
    pub fn is_proved_by(&self, words: &[u8]) -> bool {
        words == self.wanted.as_slice()
    }
}
