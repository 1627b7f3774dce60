//! What goes out in a message's place.

use crate::error::Fault;
use crate::frame::Frame;
use alloc::vec::Vec;
use pgmsg_core::pg_frames::frontend::Expects;
use pgmsg_core::pg_frames::relay::{self, end_of_run, RelayError};

/// What its user answers to a whole message.
///
/// What is added has to be whole messages.
#[derive(Clone, Debug, PartialEq, Eq)]
#[non_exhaustive]
pub enum Answer {
    /// It goes out as it came.
    Keep,
    /// Nothing goes out in its place.
    Omit,
    /// These messages go out in its place.
    Replace(Vec<u8>),
    /// These messages go out, and then it.
    AddBefore(Vec<u8>),
    /// It goes out, and then these messages.
    AddAfter(Vec<u8>),
}

impl Answer {
    /// The bytes that go out in the place of a message, which are these two one after the other.
    ///
    /// Refused with [`NotFrames`](crate::Refusal::NotFrames) where what goes out is no run of whole messages
    /// after which the stream goes on as it does after the message: so a client's first message can't be
    /// left out where a message with a tag comes next.
    ///
    /// ```
    /// use pgmsg::relay::{Answer, Event, Relay, Wanted};
    ///
    /// let mut relay = Relay::of_server(100, Wanted::ALL);
    /// match relay.next(&mut &b"1\0\0\0\x04"[..])? {
    ///     Some(Event::Frame(frame)) => {
    ///         let answer = Answer::AddAfter(b"2\0\0\0\x04".to_vec());
    ///         assert_eq!(answer.place(&frame)?, [b"1\0\0\0\x04", b"2\0\0\0\x04"]);
    ///         assert!(Answer::Replace(b"2\0\0\0".to_vec()).place(&frame).is_err());
    ///     }
    ///     other => panic!("{other:?}"),
    /// }
    /// # Ok::<(), pgmsg::Fault>(())
    /// ```
    pub fn place<'a>(&'a self, frame: &Frame<'a>) -> Result<[&'a [u8]; 2], Fault> {
        let (answer, added): (_, &[u8]) = match self {
            Answer::Keep => (relay::Answer::Keep, &[]),
            Answer::Omit => (relay::Answer::Omit, &[]),
            Answer::Replace(added) => (relay::Answer::Replace, added),
            Answer::AddBefore(added) => (relay::Answer::AddBefore, added),
            Answer::AddAfter(added) => (relay::Answer::AddAfter, added),
        };
        let expects = expects_of(frame.tag.is_none());
        let next = end_of_run(expects, frame.bytes).ok_or(RelayError::NotFrames)?;
        let (first, second) = answer.place(expects, frame.bytes, next, added)?;
        Ok([first, second])
    }
}

/// Which message comes next.
fn expects_of(is_first: bool) -> Expects {
    match is_first {
        true => Expects::First,
        false => Expects::Tagged,
    }
}

/// Whether a message without a tag comes next after some bytes, which are whole messages one after the
/// other, where the first of them has no tag if `is_first`.
///
/// Other bytes are refused with [`NotFrames`](crate::Refusal::NotFrames).
///
/// ```
/// # use pgmsg::relay::check_frames;
/// assert_eq!(check_frames(b"S\0\0\0\x04H\0\0\0\x04", false), Ok(false));
/// assert_eq!(check_frames(b"\0\0\0\x08\x04\xd2\x16\x2f", true), Ok(true));
/// assert!(check_frames(b"S\0\0\0\x04H\0", false).is_err());
/// ```
pub fn check_frames(bytes: &[u8], is_first: bool) -> Result<bool, Fault> {
    let after = end_of_run(expects_of(is_first), bytes).ok_or(RelayError::NotFrames)?;
    Ok(after == Expects::First)
}
