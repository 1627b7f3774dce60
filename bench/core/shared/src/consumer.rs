//! What takes the decoded values: a checksum, to compare two decoders, or the least that a driver
//! does, to time them.

/// Takes what was decoded, value by value.
pub trait Consumer: Default {
    /// Takes a number.
    fn number(&mut self, number: u64);

    /// Takes the place and the length of bytes.
    fn bytes(&mut self, bytes: &[u8]);

    /// A number that depends on all that was taken.
    fn value(&self) -> u64;

    /// Takes the mark of a missing value.
    #[inline(always)]
    fn nothing(&mut self) {
        self.number(u64::MAX);
    }

    /// Takes bytes, or the mark of a missing value.
    #[inline(always)]
    fn bytes_or_nothing(&mut self, bytes: Option<&[u8]>) {
        match bytes {
            Some(bytes) => self.bytes(bytes),
            None => self.nothing(),
        }
    }

    /// Takes a text, or the mark of a missing value.
    #[inline(always)]
    fn text(&mut self, text: Option<&str>) {
        self.bytes_or_nothing(text.map(str::as_bytes));
    }
}

/// A checksum in which the order, each length and each byte count.
#[derive(Default)]
pub struct Checksum(u64);

impl Consumer for Checksum {
    fn number(&mut self, number: u64) {
        self.0 = (self.0.rotate_left(5) ^ number).wrapping_mul(0x9E37_79B9_7F4A_7C15);
    }

    fn bytes(&mut self, bytes: &[u8]) {
        self.number(bytes.len() as u64);
        for byte in bytes {
            self.number(u64::from(*byte));
        }
    }

    fn value(&self) -> u64 {
        self.0
    }
}

/// The sum of all numbers and lengths, and of the first byte at each place.
#[derive(Default)]
pub struct Seen(u64);

impl Consumer for Seen {
    #[inline(always)]
    fn number(&mut self, number: u64) {
        self.0 = self.0.wrapping_add(number);
    }

    #[inline(always)]
    fn bytes(&mut self, bytes: &[u8]) {
        self.number(bytes.len() as u64);
        self.number(bytes.first().map_or(0, |first| u64::from(*first)));
    }

    fn value(&self) -> u64 {
        self.0
    }
}
