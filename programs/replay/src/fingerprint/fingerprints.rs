//! Fingerprints of messages, each once, with a number.

use openssl::sha::Sha256;
use std::collections::HashMap;

/// The number of a fingerprint that no recorded message has.
pub const UNRECORDED: u32 = u32::MAX;

/// The longest fingerprint that is kept whole. Longer ones count by their SHA-256.
const WHOLE_MOST: usize = 32;

/// A fingerprint as it is kept: its length and its bytes, or a length that no whole one has and its SHA-256.
type FingerprintKey = [u8; 1 + WHOLE_MOST];

#[derive(Default)]
pub struct Fingerprints {
    numbers: HashMap<FingerprintKey, u32>,
}

impl Fingerprints {
    /// With room for so many.
    pub fn with_capacity(count: usize) -> Fingerprints {
        Fingerprints { numbers: HashMap::with_capacity(count) }
    }

    /// The number of a fingerprint, a new one where it is the first of its kind.
    pub fn number(&mut self, fingerprint: &[u8]) -> u32 {
        let next = self.numbers.len() as u32;
        *self.numbers.entry(key_of(fingerprint)).or_insert(next)
    }

    /// How many there are.
    pub fn len(&self) -> usize {
        self.numbers.len()
    }

    /// The number of a fingerprint, or `UNRECORDED`.
    pub fn find(&self, fingerprint: &[u8]) -> u32 {
        self.numbers.get(&key_of(fingerprint)).copied().unwrap_or(UNRECORDED)
    }
}

fn key_of(fingerprint: &[u8]) -> FingerprintKey {
    let mut key = [0; 1 + WHOLE_MOST];
    if fingerprint.len() <= WHOLE_MOST {
        key[0] = fingerprint.len() as u8;
        key[1..=fingerprint.len()].copy_from_slice(fingerprint);
    } else {
        key[0] = u8::MAX;
        key[1..].copy_from_slice(&digest(fingerprint));
    }
    key
}

/// The SHA-256 of a fingerprint. (The one call for it, `sha256`, looks up the algorithm each time.)
fn digest(fingerprint: &[u8]) -> [u8; 32] {
    let mut hash = Sha256::new();
    hash.update(fingerprint);
    hash.finish()
}

#[cfg(test)]
mod tests {
    use super::*;

    #[test]
    fn forms_of_any_length_are_told_apart() {
        let mut fingerprints = Fingerprints::default();
        let texts: Vec<Vec<u8>> =
            (0..100).flat_map(|len| [vec![0; len], vec![1; len + 1]]).collect();
        for (number, text) in texts.iter().enumerate() {
            assert_eq!(fingerprints.find(text), UNRECORDED);
            assert_eq!(fingerprints.number(text), number as u32);
        }
        for (number, text) in texts.iter().enumerate() {
            assert_eq!(
                (fingerprints.find(text), fingerprints.number(text)),
                (number as u32, number as u32)
            );
        }
        // What would be the digest of a long fingerprint is another one where it is said.
        assert_eq!(fingerprints.find(&digest(&texts[199])), UNRECORDED);
    }
}
