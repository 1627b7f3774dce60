//! What each of the two crates writes by a call.

use crate::random::Random;
use bytes::BytesMut;
use original::IsNull;

/// What is passed to a call. Each takes what it needs.
pub struct Arguments {
    pub first: String,
    pub second: String,
    pub data: Vec<u8>,
    pub numbers: [i32; 2],
    pub variant: u8,
    pub types: Vec<u32>,
    pub formats: Vec<i16>,
    pub result_formats: Vec<i16>,
    /// `None` is NULL, and one that starts with 7 can't be written.
    pub values: Vec<Option<Vec<u8>>>,
    pub settings: Vec<(String, String)>,
}

impl Arguments {
    pub fn new(random: &mut Random) -> Arguments {
        let longest = random.pick(&[5, 20, 20, 20, 20, 20, 20, 300]);
        Arguments {
            first: random.text(),
            second: random.text(),
            data: random.bytes(longest),
            numbers: [random.i32(), random.i32()],
            variant: random.pick(b"SPSPSPSPx\0"),
            types: (0..count(random)).map(|_| random.number() as u32).collect(),
            formats: (0..count(random)).map(|_| random.pick(&[0, 1, -1, 7])).collect(),
            result_formats: (0..count(random)).map(|_| random.pick(&[0, 1, -1, 7])).collect(),
            values: (0..count(random)).map(|_| value(random)).collect(),
            settings: (0..random.below(4)).map(|_| (random.text(), random.text())).collect(),
        }
    }

    /// The settings by their texts.
    fn settings(&self) -> impl Iterator<Item = (&str, &str)> {
        self.settings.iter().map(|(name, value)| (&name[..], &value[..]))
    }
}

/// A small count, or rarely one about the largest that the original takes.
fn count(random: &mut Random) -> usize {
    match random.below(3000) {
        0 => 32766 + random.below(4),
        1 => 17 + random.below(100),
        _ => random.below(5),
    }
}

fn value(random: &mut Random) -> Option<Vec<u8>> {
    match random.below(5) {
        0 => None,
        _ => {
            let mut bytes = random.bytes(9);
            if bytes.first() == Some(&7) && !random.once_in(8) {
                bytes[0] = 8;
            }
            Some(bytes)
        }
    }
}

/// Writes a value, as a driver's types do.
fn serialize(
    value: &Option<Vec<u8>>,
    to: &mut BytesMut,
) -> Result<IsNull, Box<dyn std::error::Error + Sync + Send>> {
    match value {
        None => Ok(IsNull::Yes),
        Some(bytes) if bytes.first() == Some(&7) => Err("no such value".into()),
        Some(bytes) => {
            to.extend_from_slice(bytes);
            Ok(IsNull::No)
        }
    }
}

/// A call by its name: whether it is refused, once it has appended to the buffer.
pub type Call = (&'static str, fn(&Arguments, &mut BytesMut) -> bool);

/// Makes the calls of one of the two crates.
#[rustfmt::skip]
macro_rules! writer {
    ($name:ident, $library:ident) => {
        pub mod $name {
            use super::{serialize, Call};
            use $library::message::frontend::*;

            pub const CALLS: [Call; 17] = [
                ("bind", |it, out| {
                    let (formats, results) = (it.formats.iter().copied(), it.result_formats.iter().copied());
                    bind(&it.first, &it.second, formats, &it.values, serialize, results, out).is_err()
                }),
                ("cancel_request", |it, out| { cancel_request(it.numbers[0], it.numbers[1], out); false }),
                ("close", |it, out| close(it.variant, &it.first, out).is_err()),
                ("CopyData", |it, out| CopyData::new(&it.data[..]).map(|data| data.write(out)).is_err()),
                ("copy_done", |_, out| { copy_done(out); false }),
                ("copy_fail", |it, out| copy_fail(&it.first, out).is_err()),
                ("describe", |it, out| describe(it.variant, &it.first, out).is_err()),
                ("execute", |it, out| execute(&it.first, it.numbers[0], out).is_err()),
                ("parse", |it, out| parse(&it.first, &it.second, it.types.iter().copied(), out).is_err()),
                ("password_message", |it, out| password_message(&it.data, out).is_err()),
                ("query", |it, out| query(&it.first, out).is_err()),
                ("sasl_initial_response", |it, out| sasl_initial_response(&it.first, &it.data, out).is_err()),
                ("sasl_response", |it, out| sasl_response(&it.data, out).is_err()),
                ("ssl_request", |_, out| { ssl_request(out); false }),
                ("startup_message", |it, out| startup_message(it.settings(), out).is_err()),
                ("sync", |_, out| { sync(out); false }),
                ("terminate", |_, out| { terminate(out); false }),
            ];
        }
    };
}

writer!(ours, postgres_protocol_pgmsg);
writer!(theirs, original);
