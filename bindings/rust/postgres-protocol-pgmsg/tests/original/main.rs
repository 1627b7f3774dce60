//! Compares the crate with the original: random streams and random calls, of a fixed seed.

mod random;
mod read;
mod streams;
mod write;

use bytes::BytesMut;
use random::Random;
use write::Arguments;

const STREAMS: usize = 20_000;
const ROUNDS: usize = 4_000;

/// The most that the original counts.
const COUNTED: usize = i16::MAX as usize;

#[test]
fn random_streams_are_read_alike() {
    let mut random = Random::new(37);
    let mut named = 0;
    let mut refused = 0;
    for _ in 0..STREAMS {
        let stream = streams::stream(&mut random);
        let (front, back) = stream.split_at(random.below(stream.len() + 1));
        let ours = read::ours::read(&[front, back]);
        let theirs = read::theirs::read(&[front, back]);
        refused += usize::from(ours.last().is_some_and(|last| last == "refused"));
        if ours != theirs {
            assert!(is_named(&ours, &theirs), "{stream:02x?}:\n{ours:#?}\n{theirs:#?}");
            named += 1;
        }
    }
    println!("{STREAMS} streams read alike, {refused} refused; {named} of named differences");
}

/// Whether the readings differ in one of the ways that the documentation names: all is the same, up
/// to a message that is refused here.
fn is_named(ours: &[String], theirs: &[String]) -> bool {
    let same = ours.iter().zip(theirs).take_while(|(ours, theirs)| ours == theirs).count();
    let is_refused = same + 1 == ours.len() && ours[same] == "refused";
    let other = theirs[same].split_once(' ').map_or("", |(_, message)| message);
    let status = other.strip_prefix("ReadyForQuery ");
    let is_ready = status.is_some_and(|status| !["(73,)", "(84,)", "(69,)"].contains(&status));
    let is_long = same > 0 && ours[same - 1] == "refused" && theirs[same].parse::<usize>().is_ok();
    is_refused && (is_ready || is_long)
}

#[test]
fn random_calls_write_alike() {
    let mut random = Random::new(37);
    for (&(name, ours), (_, theirs)) in write::ours::CALLS.iter().zip(write::theirs::CALLS) {
        let mut named = 0;
        let mut refused = 0;
        for _ in 0..ROUNDS {
            let arguments = Arguments::new(&mut random);
            let before = random.bytes(5);
            let (mut our_bytes, mut their_bytes) =
                (BytesMut::from(&before[..]), BytesMut::from(&before[..]));
            let is_refused = ours(&arguments, &mut our_bytes);
            let same = theirs(&arguments, &mut their_bytes) == is_refused;
            refused += usize::from(is_refused);
            if is_refused {
                assert_eq!(our_bytes, before, "{name} changes the buffer where it refuses");
            }
            if is_different(name, &arguments) {
                named += usize::from(!same);
            } else {
                assert!(same, "{name} is refused by one: {before:?}");
                assert!(
                    is_refused || our_bytes == their_bytes,
                    "{name}: {our_bytes:?} {their_bytes:?}"
                );
            }
        }
        println!("{name}: {ROUNDS} rounds alike, {refused} refused; {named} of named differences");
    }
}

/// Whether a call with these arguments may differ in one of the ways that the documentation names.
fn is_different(name: &str, it: &Arguments) -> bool {
    match name {
        "bind" => [it.values.len(), it.formats.len(), it.result_formats.len()]
            .iter()
            .any(|&count| count > COUNTED),
        "parse" => it.types.len() > COUNTED,
        "close" | "describe" => !b"SP".contains(&it.variant),
        "startup_message" => it.settings.iter().any(|(name, _)| name.is_empty()),
        _ => false,
    }
}
