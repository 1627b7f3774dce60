//! Random and mutated bytes of PostgreSQL's protocol by a seed, for tests of what reads bytes of others. The variable
//! `MUTANTS` says how many inputs a test takes at least, and `MUTANT_SEED` by which seed they are made.
#![forbid(unsafe_code)]

mod recordings;

use rand::rngs::SmallRng;
use rand::seq::SliceRandom;
use rand::{Rng, SeedableRng};

/// A first message that opens a session.
pub const STARTUP: &[u8] = b"\0\0\0\x12\0\x03\0\0user\0ann\0\0";

/// How a client may begin.
const FIRST: [&[u8]; 6] = [
    STARTUP,
    b"\0\0\0\x08\x04\xd2\x16\x2f",
    b"\0\0\0\x08\x04\xd2\x16\x30",
    b"\0\0\0\x10\x04\xd2\x16\x2e\0\0\0\x07\0\0\0\x01",
    b"\x16\x03\x01\x02\0\x01\0\x01\xfc\x03\x03",
    b"GET / HTTP/1.1\r\n\r\n",
];

/// Messages of clients.
pub const OF_CLIENT: [&[u8]; 17] = [
    b"Q\0\0\0\x0dSELECT 1\0",
    b"Q\0\0\0\x10SAVEPOINT a\0",
    b"Q\0\0\0\x0dFETCH \"x\0",
    b"P\0\0\0\x10\0SELECT 2\0\0\0",
    b"P\0\0\0\x11s\0SELECT 2\0\0\0",
    b"B\0\0\0\x11\0\0\0\0\0\x01\0\0\0\x015\0\0",
    b"E\0\0\0\x09\0\0\0\0\0",
    b"D\0\0\0\x06P\0",
    b"C\0\0\0\x06S\0",
    b"F\0\0\0\x0e\0\0\0\x01\0\0\0\0\0\0",
    b"S\0\0\0\x04",
    b"H\0\0\0\x04",
    b"X\0\0\0\x04",
    b"d\0\0\0\x08data",
    b"c\0\0\0\x04",
    b"f\0\0\0\x07no\0",
    b"p\0\0\0\x0bsecret\0",
];

/// Messages of servers.
pub const OF_SERVER: [&[u8]; 19] = [
    b"R\0\0\0\x08\0\0\0\0",
    b"R\0\0\0\x17\0\0\0\x0aSCRAM-SHA-256\0\0",
    b"1\0\0\0\x04",
    b"2\0\0\0\x04",
    b"3\0\0\0\x04",
    b"n\0\0\0\x04",
    b"t\0\0\0\x06\0\0",
    b"T\0\0\0\x06\0\0",
    b"D\0\0\0\x06\0\0",
    b"C\0\0\0\x0dSELECT 1\0",
    b"I\0\0\0\x04",
    b"s\0\0\0\x04",
    b"G\0\0\0\x07\0\0\0",
    b"W\0\0\0\x07\0\0\0",
    b"E\0\0\0\x0cC57014\0\0",
    b"A\0\0\0\x0b\0\0\0\x07a\0\0",
    b"Z\0\0\0\x05I",
    b"Z\0\0\0\x05T",
    b"K\0\0\0\x0c\0\0\0\x07\0\0\0\x01",
];

/// How many kB more than after its first inputs a process may hold after its last.
const GROWTH_MOST: u64 = 4096;

/// Makes inputs, and counts those that were taken.
pub struct Mutants {
    chance: SmallRng,
    seed: u64,
    wanted: u64,
    taken: u64,
    /// The memory of the process after the first tenth, in kB.
    before: Option<u64>,
}

impl Mutants {
    /// As many as the variables say, or else so many.
    pub fn of_variables(usual: u64) -> Mutants {
        let number =
            |name, usual| std::env::var(name).ok().and_then(|it| it.parse().ok()).unwrap_or(usual);
        let seed = number("MUTANT_SEED", 1);
        Mutants {
            chance: SmallRng::seed_from_u64(seed),
            seed,
            wanted: number("MUTANTS", usual),
            taken: 0,
            before: None,
        }
    }

    /// Whether more are wanted.
    pub fn go_on(&mut self) -> bool {
        if self.before.is_none() && self.taken * 10 >= self.wanted {
            self.before = Some(resident());
        }
        self.taken < self.wanted
    }

    /// Counts inputs that were taken.
    pub fn took(&mut self, count: usize) {
        self.taken += count as u64;
    }

    /// Says how many were taken, and tests that the process holds no more than after the first of them.
    pub fn end(&self, of: &str) {
        let (before, after) = (self.before.unwrap_or_default(), resident());
        println!(
            "{} {of} by the seed {}: {before} kB after a tenth, {after} kB at the end",
            self.taken, self.seed
        );
        assert!(after <= before + GROWTH_MOST, "they grow");
    }

    /// One of two, at random.
    pub fn flips(&mut self) -> bool {
        self.chance.gen()
    }

    /// A number below one.
    pub fn below(&mut self, end: usize) -> usize {
        self.chance.gen_range(0..end)
    }

    /// How a client begins: honestly, nearly so, or with any bytes.
    pub fn first_bytes(&mut self) -> Vec<u8> {
        let first = FIRST.choose(&mut self.chance).copied().unwrap_or_default().to_vec();
        match self.below(4) {
            0 => first,
            1 => {
                let mut bytes = vec![0; self.below(64)];
                self.chance.fill(&mut bytes[..]);
                bytes
            }
            _ => self.mutated(first),
        }
    }

    /// So many messages of those.
    pub fn messages(&mut self, of: &[&[u8]], count: usize) -> Vec<u8> {
        let mut messages = Vec::new();
        for _ in 0..count {
            messages.extend_from_slice(of.choose(&mut self.chance).copied().unwrap_or_default());
        }
        messages
    }

    /// Bytes of which some are changed, cut off, added or said again.
    pub fn mutated(&mut self, mut bytes: Vec<u8>) -> Vec<u8> {
        for _ in 0..self.below(4) {
            let at = self.below(bytes.len() + 1);
            match self.below(4) {
                0 if at < bytes.len() => bytes[at] = self.chance.gen(),
                1 => bytes.truncate(at),
                2 => {
                    bytes.insert(at, *[0, 1, 127, 128, 255].choose(&mut self.chance).unwrap_or(&0))
                }
                _ => bytes.extend_from_within(at..),
            }
        }
        bytes
    }
}

/// The memory that the process holds, in kB.
fn resident() -> u64 {
    let status = std::fs::read_to_string("/proc/self/status").unwrap_or_default();
    let line = status.lines().find_map(|it| it.strip_prefix("VmRSS:"));
    line.and_then(|it| it.trim().trim_end_matches(" kB").parse().ok()).unwrap_or_default()
}

#[cfg(test)]
mod tests {
    use super::*;

    #[test]
    fn each_message_is_as_long_as_it_says() {
        let all = OF_CLIENT.iter().chain(&OF_SERVER).map(|it| &it[1..]).chain([STARTUP]);
        for message in all {
            let length = u32::from_be_bytes([message[0], message[1], message[2], message[3]]);
            assert_eq!(message.len(), length as usize, "{message:?}");
        }
    }
}
