//! What a client sends.

use crate::message::Message;
use crate::numbers::u32_at;
use alloc::vec::Vec;
use program_io::memory::{AllocError, TryVec};

/// Why a message can't be sent.
#[derive(Clone, Copy, Debug, PartialEq, Eq)]
pub enum Unsent {
    /// It is longer than a server takes.
    Long,
    /// An allocation failed.
    Memory,
}

impl From<AllocError> for Unsent {
    /// `Unsent::Memory`
    fn from(_: AllocError) -> Unsent {
        Unsent::Memory
    }
}

// The greatest body that a server takes.
const MAX_BODY: usize = 0x3fff_fffb;

// A tag, if there is one, the length and the body.
pub(crate) fn message_of(tag: &[u8], body: &[u8]) -> Result<Vec<u8>, Unsent> {
    if body.len() > MAX_BODY {
        return Err(Unsent::Long);
    }
    let mut message = Vec::new();
    message.try_extend_from_slice(tag)?;
    message.try_extend_from_slice(&(body.len() as u32 + 4).to_be_bytes())?;
    message.try_extend_from_slice(body)?;
    Ok(message)
}

// A message of a tag and one text.
fn text_message(tag: &[u8], text: &[u8]) -> Result<Vec<u8>, Unsent> {
    let mut body = Vec::new();
    body.try_extend_from_slice(text)?;
    body.try_extend_from_slice(&[0])?;
    message_of(tag, body.as_slice())
}

/// A query. It fails with `Long` only above 1,073,741,818 bytes.
///
/// <details><summary>Contract</summary>
///
/// As it is proved, in [these words](crate::words):
///
/// ```text
/// ensures { MatchResult result
///     (λ sent. (vec_items sent ≡ sent_query query.now) × (length query.now ≤ 1073741818))
///     (λ why. why ≡ Long → 1073741818 < length query.now) }
/// ```
/// </details>
pub fn query_message(query: &str) -> Result<Vec<u8>, Unsent> {
    text_message(b"Q", query.as_bytes())
}

/// A password in clear text. It fails with `Long` only above 1,073,741,818 bytes.
///
/// <details><summary>Contract</summary>
///
/// As it is proved, in [these words](crate::words):
///
/// ```text
/// ensures { MatchResult result
///     (λ sent. (vec_items sent ≡ sent_password password.now) × (length password.now ≤ 1073741818))
///     (λ why. why ≡ Long → 1073741818 < length password.now) }
/// ```
/// </details>
pub fn password_message(password: &str) -> Result<Vec<u8>, Unsent> {
    text_message(b"p", password.as_bytes())
}

/// The end of a session. It never fails with `Long`.
///
/// <details><summary>Contract</summary>
///
/// As it is proved, in [these words](crate::words):
///
/// ```text
/// ensures { MatchResult result (λ sent. vec_items sent ≡ sent_end) (λ why. why ≡ Memory) }
/// ```
/// </details>
pub fn terminate_message() -> Result<Vec<u8>, Unsent> {
    message_of(b"X", &[])
}

/// What asks for a session of a user with a database. It fails with `Long` only if both names together have more than 1,073,741,777 bytes. A name with a 0 in it is read otherwise than it is meant.
///
/// <details><summary>Contract</summary>
///
/// As it is proved, in [these words](crate::words):
///
/// ```text
/// ensures { MatchResult result (λ sent. (vec_items sent ≡ sent_startup user.now database.now)
///     × (length user.now + length database.now ≤ 1073741777))
///     (λ why. why ≡ Long → 1073741777 < length user.now + length database.now) }
/// ```
/// </details>
pub fn startup_message(user: &str, database: &str) -> Result<Vec<u8>, Unsent> {
    let mut body = Vec::new();
    body.try_extend_from_slice(b"\0\x03\0\0user\0")?;
    body.try_extend_from_slice(user.as_bytes())?;
    body.try_extend_from_slice(b"\0database\0")?;
    body.try_extend_from_slice(database.as_bytes())?;
    body.try_extend_from_slice(b"\0client_encoding\0UTF8\0\0")?;
    message_of(&[], body.as_slice())
}

/// What a server asks for before it starts a session.
#[derive(Clone, Copy, Debug, PartialEq, Eq)]
pub enum Request {
    /// Nothing more.
    Nothing,
    /// The password in clear text.
    Password,
    /// Another proof of identity, by its number.
    Other(u32),
}

// What a number asks for.
fn request_by(number: u32) -> Request {
    if number == 0 {
        Request::Nothing
    } else if number == 3 {
        Request::Password
    } else {
        Request::Other(number)
    }
}

/// What a message asks for, if it asks for something.
///
/// <details><summary>Contract</summary>
///
/// As it is proved, in [these words](crate::words):
///
/// ```text
/// ensures { result ≡ request_of (message_bytes message.now) }
/// ```
/// </details>
pub fn request_of(message: &Message) -> Option<Request> {
    let bytes = message.bytes();
    if message.tag() == b'R' && bytes.len() >= 9 {
        Some(request_by(u32_at(bytes, 5)))
    } else {
        None
    }
}

/// What a message says after the four bytes of what it asks for.
///
/// <details><summary>Contract</summary>
///
/// As it is proved, in [these words](crate::words):
///
/// ```text
/// ensures { result.now ≡ drop 9 (message_bytes message.now) }
/// ```
/// </details>
pub fn request_data(message: &Message) -> &[u8] {
    let bytes = message.bytes();
    if bytes.len() < 9 { &[] } else { &bytes[9..] }
}

/// The two numbers by which a query of a session is cancelled.
#[derive(Clone, Copy, Debug, PartialEq, Eq)]
pub struct CancelKey {
    process: u32,
    secret: u32,
}

/// The numbers that a message tells by which a query is cancelled, if it tells them.
///
/// <details><summary>Contract</summary>
///
/// As it is proved, in [these words](crate::words):
///
/// ```text
/// ensures { result ≡ cancel_key_of (message_bytes message.now) }
/// ```
/// </details>
pub fn cancel_key_of(message: &Message) -> Option<CancelKey> {
    let bytes = message.bytes();
    if message.tag() == b'K' && bytes.len() == 13 {
        Some(CancelKey {
            process: u32_at(bytes, 5),
            secret: u32_at(bytes, 9),
        })
    } else {
        None
    }
}

/// What asks a server, over a connection of its own, to cancel the query of a session. It never fails with `Long`.
///
/// <details><summary>Contract</summary>
///
/// As it is proved, in [these words](crate::words):
///
/// ```text
/// ensures { MatchResult result (λ sent. vec_items sent ≡ sent_cancel key) (λ why. why ≡ Memory) }
/// ```
/// </details>
pub fn cancel_message(key: CancelKey) -> Result<Vec<u8>, Unsent> {
    let mut body = Vec::new();
    body.try_extend_from_slice(&80_877_102u32.to_be_bytes())?;
    body.try_extend_from_slice(&key.process.to_be_bytes())?;
    body.try_extend_from_slice(&key.secret.to_be_bytes())?;
    message_of(&[], body.as_slice())
}
