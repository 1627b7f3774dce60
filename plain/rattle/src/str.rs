//! Text in bytes.

/// The text that bytes are which are proved to be UTF-8. For callers that aren't proved it is tested, and ends in a panic.
#[inline]
pub fn from_proved_utf8(bytes: &[u8]) -> &str {
    core::str::from_utf8(bytes).expect("bytes of a text")
}
