//! Which messages are wanted whole.

use crate::byte_str::ByteStr;
use alloc::vec::Vec;
use core::fmt;
use pgmsg_core::pg_frames::relay::Wants;

/// Which messages a relay gives whole, by their tags. All others go out in parts as their bytes come,
/// whatever their length.
///
/// ```
/// use pgmsg::relay::Wanted;
///
/// const QUERIES: Wanted = Wanted::tags(b"QP");
/// assert!(QUERIES.wants(b'Q') && !QUERIES.wants(b'd'));
/// assert!(Wanted::ALL.without(b"d").wants(b'Q'));
/// ```
#[derive(Clone, Copy, PartialEq, Eq)]
pub struct Wanted([bool; 256]);

impl Wanted {
    /// Every message.
    pub const ALL: Wanted = Wanted([true; 256]);

    /// No message with a tag.
    pub const NONE: Wanted = Wanted([false; 256]);

    /// Messages with these tags.
    pub const fn tags(tags: &[u8]) -> Wanted {
        Wanted::NONE.set(tags, true)
    }

    /// All these but messages with those tags.
    pub const fn without(self, tags: &[u8]) -> Wanted {
        self.set(tags, false)
    }

    const fn set(self, tags: &[u8], flag: bool) -> Wanted {
        let mut flags = self.0;
        let mut at = 0;
        while at < tags.len() {
            flags[tags[at] as usize] = flag;
            at += 1;
        }
        Wanted(flags)
    }

    /// Whether messages with a tag are wanted whole.
    #[inline]
    pub const fn wants(&self, tag: u8) -> bool {
        self.0[tag as usize]
    }
}

impl Wants for Wanted {
    #[inline]
    fn wants(&self, tag: u8, _length: usize) -> bool {
        Wanted::wants(self, tag)
    }
}

/// Shows the tags as a byte string.
impl fmt::Debug for Wanted {
    fn fmt(&self, f: &mut fmt::Formatter<'_>) -> fmt::Result {
        let tags = (0..=u8::MAX).filter(|&tag| self.wants(tag));
        write!(f, "Wanted({:?})", ByteStr(&tags.collect::<Vec<_>>()))
    }
}
