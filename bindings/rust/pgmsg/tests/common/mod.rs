//! What the tests share.

// Each test file is a crate of its own and uses a part.
#![allow(dead_code, unused_imports, unused_macros)]

pub mod samples;

use pgmsg::{Fault, Refusal};

/// The refusal of a call that read, and its offset.
pub fn fault_of<T>(result: Result<T, Fault>) -> (Refusal, usize) {
    match result {
        Ok(_) => panic!("the call succeeded"),
        Err(fault) => (fault.refusal, fault.at),
    }
}

/// The value of a result, or `None` where it is a fault, of which the words and the offset are sound.
pub fn checked<T>(bytes: &[u8], result: Result<T, Fault>) -> Option<T> {
    let Err(fault) = result else { return result.ok() };
    assert!(fault.at <= bytes.len(), "{fault:?} of {bytes:?}");
    assert!(!fault.words.is_empty() && fault.words.is_ascii());
    None
}

/// Numbers that are the same in each run (xorshift64).
pub struct Numbers(u64);

impl Numbers {
    pub fn new(seed: u64) -> Numbers {
        assert_ne!(seed, 0);
        Numbers(seed)
    }

    /// A number below a bound, which is above 0.
    pub fn below(&mut self, bound: usize) -> usize {
        self.0 ^= self.0 << 13;
        self.0 ^= self.0 >> 7;
        self.0 ^= self.0 << 17;
        (self.0 % bound as u64) as usize
    }

    pub fn byte(&mut self) -> u8 {
        self.below(256) as u8
    }

    /// So many bytes, of which half are small, as counts and lengths are.
    pub fn bytes(&mut self, len: usize) -> Vec<u8> {
        let byte = |_| match self.below(2) {
            0 => self.below(4) as u8,
            _ => self.byte(),
        };
        (0..len).map(byte).collect()
    }

    /// These bytes, of which one is another, and up to two bytes after them.
    pub fn changed(&mut self, bytes: &[u8]) -> Vec<u8> {
        let mut changed = bytes.to_vec();
        let at = self.below(bytes.len());
        changed[at] = self.byte();
        let more = self.below(3);
        changed.extend(self.bytes(more));
        changed
    }

    /// A few messages with some of these tags, and up to seven bytes after them.
    pub fn stream(&mut self, tags: &[u8]) -> Vec<u8> {
        let mut stream = Vec::new();
        for _ in 0..self.below(5) {
            let body_len = self.below(20);
            stream.push(tags[self.below(tags.len())]);
            stream.extend((body_len as u32 + 4).to_be_bytes());
            stream.extend(self.bytes(body_len));
        }
        let noise = self.below(8);
        stream.extend(self.bytes(noise));
        stream
    }
}
