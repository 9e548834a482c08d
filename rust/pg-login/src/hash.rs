//! SHA-256, HMAC and PBKDF2, by the crates `sha2`, `hmac` and `pbkdf2`.
use fallible_pg::Hash;
use hmac::{Hmac, Mac};
use sha2::{Digest, Sha256};
use std::cell::Cell;

/// How many rounds of the hash are made at most. A server of PostgreSQL asks for 4096, if it isn't told otherwise.
pub const MOST_ROUNDS: u64 = 1_000_000;

/// SHA-256 of the crate `sha2`.
#[derive(Debug, Default)]
pub struct Sha {
    /// The rounds that a server asked for, where they are too many. None is made then.
    pub too_many: Cell<Option<u64>>,
}

impl Hash for Sha {
    fn hash(&self, bytes: &[u8]) -> [u8; 32] {
        Sha256::digest(bytes).into()
    }

    fn hmac(&self, key: &[u8], message: &[u8]) -> [u8; 32] {
        let mut mac = Hmac::<Sha256>::new_from_slice(key).expect("a key of any length is taken");
        mac.update(message);
        mac.finalize().into_bytes().into()
    }

    fn stretch(&self, password: &[u8], salt: &[u8], rounds: u64) -> [u8; 32] {
        let mut stretched = [0; 32];
        match u32::try_from(rounds) {
            Ok(few) if rounds <= MOST_ROUNDS => {
                pbkdf2::pbkdf2::<Hmac<Sha256>>(password, salt, few, &mut stretched);
            }
            _ => self.too_many.set(Some(rounds)),
        }
        stretched
    }
}
