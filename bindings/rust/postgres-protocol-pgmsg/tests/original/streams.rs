//! Streams from a server: right ones, changed ones, and cut ones.

use crate::random::Random;

/// The tags of all messages, and some that no message has.
const TAGS: &[u8] = b"RK23CdcGHDIEnNAtS1sZTRDETS?W\0v";

/// Some messages, one after the other, of which some may be changed, and the last be cut.
pub fn stream(random: &mut Random) -> Vec<u8> {
    let mut stream = Vec::new();
    for _ in 0..=random.below(4) {
        stream.extend(message(random));
    }
    match random.below(3) {
        0 => {}
        1 => change(&mut stream, random),
        _ => stream.truncate(random.below(stream.len() + 1)),
    }
    stream
}

/// Changes some bytes, or takes some out, or puts some in.
fn change(stream: &mut Vec<u8>, random: &mut Random) {
    for _ in 0..=random.below(3) {
        let at = random.below(stream.len().max(1));
        match random.below(4) {
            0 if !stream.is_empty() => drop(stream.remove(at)),
            1 => stream.insert(at, random.pick(&[0, 0xff, b'A'])),
            2 if !stream.is_empty() => stream[at] = random.pick(&[0, 1, 2, 4, 0x7f, 0x80, 0xff]),
            _ if !stream.is_empty() => stream[at] ^= 1 << random.below(8),
            _ => {}
        }
    }
}

fn message(random: &mut Random) -> Vec<u8> {
    let tag = random.pick(TAGS);
    let mut body = body(tag, random);
    // A body that is too short or too long, in a message whose length is right.
    match random.below(12) {
        0 => body.truncate(random.below(body.len() + 1)),
        1 => body.extend(random.bytes(3)),
        _ => {}
    }
    let mut message = vec![tag];
    message.extend((body.len() as u32 + 4).to_be_bytes());
    message.extend(body);
    message
}

fn body(tag: u8, random: &mut Random) -> Vec<u8> {
    match tag {
        b'R' => authentication(random),
        b'K' => [random.i32().to_be_bytes(), random.i32().to_be_bytes()].concat(),
        b'C' => random.ended(),
        b'd' => random.bytes(20),
        b'G' | b'H' => copy_response(random),
        b'D' => row(random),
        b'E' | b'N' => fields(random),
        b'A' => [random.i32().to_be_bytes().to_vec(), random.ended(), random.ended()].concat(),
        b't' => list(random, 4, |random| random.i32().to_be_bytes().to_vec()),
        b'S' => [random.ended(), random.ended()].concat(),
        b'Z' => vec![random.pick(b"ITEITEITEITEITEx\0")],
        b'T' => list(random, 4, |random| {
            [random.ended(), (0..18).map(|_| random.number() as u8).collect()].concat()
        }),
        _ => Vec::new(),
    }
}

/// A count, and as many items, or rarely others.
fn list(random: &mut Random, most: usize, item: fn(&mut Random) -> Vec<u8>) -> Vec<u8> {
    let count = random.below(most + 1);
    let items: Vec<u8> = (0..count).flat_map(|_| item(random)).collect();
    let said = match random.below(40) {
        0 => random.number() as u16,
        1 => count as u16 + 1,
        2 => (count as u16).wrapping_sub(1),
        _ => count as u16,
    };
    [said.to_be_bytes().to_vec(), items].concat()
}

fn row(random: &mut Random) -> Vec<u8> {
    list(random, 6, |random| {
        let value = random.bytes(9);
        match random.below(6) {
            0 => (-1i32).to_be_bytes().to_vec(),
            1 if random.once_in(8) => random.i32().to_be_bytes().to_vec(),
            _ => [(value.len() as u32).to_be_bytes().to_vec(), value].concat(),
        }
    })
}

fn copy_response(random: &mut Random) -> Vec<u8> {
    let format = random.pick(&[0, 1, 0, 1, 2, 0xff]);
    let columns =
        list(random, 4, |random| random.pick(&[0u16, 1, 0, 1, 7, 0xffff]).to_be_bytes().to_vec());
    [vec![format], columns].concat()
}

fn fields(random: &mut Random) -> Vec<u8> {
    let mut body = Vec::new();
    for _ in 0..random.below(6) {
        body.push(random.pick(b"SVCMDHPpqWstcdnFLRx\xff"));
        body.extend(random.ended());
    }
    body.push(0);
    body
}

fn authentication(random: &mut Random) -> Vec<u8> {
    let method = random.pick(&[0u32, 2, 3, 5, 6, 7, 8, 9, 10, 10, 11, 12, 1, 13]);
    let mut body = method.to_be_bytes().to_vec();
    match method {
        5 => body.extend(random.i32().to_be_bytes()),
        8 => body.extend(random.bytes(9)),
        10 => {
            for _ in 0..random.below(4) {
                body.extend(random.ended());
            }
            body.push(0);
        }
        11 => {
            body.extend(random.pick(&[&b"r=abc,s=QUJD,i=4096"[..], b"r=a,s=!,i=x", b"\xff", b""]))
        }
        12 => body.extend(random.pick(&[&b"v=QUJD"[..], b"e=other-error", b"v=!", b""])),
        _ => {}
    }
    body
}
