//! The hash that an exchange is over.

use super::xor;

/// What SHA-256 gives of some bytes.
pub type Key = [u8; 32];

/// SHA-256 and HMAC with it, of a library of the caller's. The feature `sha2` has `Sha256`, by the crates
/// sha2 and hmac.
pub trait Digest {
    /// HMAC that has a key, for any number of messages.
    type Keyed;

    /// The hash of some bytes.
    fn hash(bytes: &[u8]) -> Key;

    /// HMAC with a key.
    fn keyed(key: &[u8]) -> Self::Keyed;

    /// The HMAC of a message.
    fn mac(keyed: &Self::Keyed, message: &[u8]) -> Key;

    /// The HMAC of a single message with a key.
    fn hmac(key: &[u8], message: &[u8]) -> Key {
        Self::mac(&Self::keyed(key), message)
    }

    /// A password that is hashed with a salt, so often: PBKDF2 with HMAC.
    fn salted(password: &[u8], salt: &[u8], iterations: u32) -> Key {
        let keyed = Self::keyed(password);
        let mut last = Self::mac(&keyed, &[salt, &[0, 0, 0, 1]].concat());
        let mut salted = last;
        for _ in 1..iterations {
            last = Self::mac(&keyed, &last);
            salted = xor(salted, &last);
        }
        salted
    }
}

/// SHA-256 of the crates sha2 and hmac.
#[cfg(feature = "sha2")]
#[derive(Clone, Copy, Debug)]
pub struct Sha256;

#[cfg(feature = "sha2")]
impl Digest for Sha256 {
    type Keyed = hmac::Hmac<sha2::Sha256>;

    fn hash(bytes: &[u8]) -> Key {
        sha2::Digest::finalize(sha2::Digest::chain_update(sha2::Sha256::default(), bytes)).into()
    }

    fn keyed(key: &[u8]) -> Self::Keyed {
        hmac::Mac::new_from_slice(key).expect("a key of any length")
    }

    fn mac(keyed: &Self::Keyed, message: &[u8]) -> Key {
        use hmac::Mac;
        keyed.clone().chain_update(message).finalize().into_bytes().into()
    }
}
