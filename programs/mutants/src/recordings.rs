//! Recordings of connections whose both sides say anything.

use crate::{Mutants, OF_CLIENT, OF_SERVER, STARTUP};
use recording::{put_record, RecordKind, Side};

impl Mutants {
    /// A recording of up to three connections, which may be changed itself.
    pub fn recording(&mut self) -> Vec<u8> {
        let mut recording = b"PGMSGREC\0\0\0\x01\0\0\0\0\0\0\0\0".to_vec();
        recording.extend_from_slice(&crc32fast::hash(&recording).to_be_bytes());
        for connection in 1..=1 + self.below(3) as u32 {
            self.add_connection(&mut recording, connection);
        }
        match self.below(20) {
            0 => self.mutated(recording),
            _ => recording,
        }
    }

    fn add_connection(&mut self, recording: &mut Vec<u8>, connection: u32) {
        let mut add = |kind, time, content: &[u8]| {
            put_record(recording, kind, connection, time, content, crc32fast::hash(content))
        };
        add(RecordKind::Opened, 0, b"");
        let first = if self.below(10) > 0 { STARTUP.to_vec() } else { self.first_bytes() };
        add(RecordKind::Bytes(Side::Client), 1, &first);
        for time in 2..3 + self.below(27) as u64 {
            let count = 1 + self.below(5);
            let (side, said) = match self.flips() {
                true => (Side::Client, self.messages(&OF_CLIENT, count)),
                false => (Side::Server, self.messages(&OF_SERVER, count)),
            };
            let said = if self.below(10) > 0 { said } else { self.mutated(said) };
            add(RecordKind::Bytes(side), time, &said);
        }
        if self.below(5) > 0 {
            add(RecordKind::Closed, 40, if self.flips() { b"F" } else { b"B" });
        }
    }
}
