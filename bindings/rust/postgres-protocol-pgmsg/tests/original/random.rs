//! Numbers, texts and bytes that depend on a seed alone.

/// The generator SplitMix64.
pub struct Random(u64);

impl Random {
    pub fn new(seed: u64) -> Random {
        Random(seed)
    }

    pub fn number(&mut self) -> u64 {
        self.0 = self.0.wrapping_add(0x9e37_79b9_7f4a_7c15);
        let mut mixed = self.0;
        mixed = (mixed ^ (mixed >> 30)).wrapping_mul(0xbf58_476d_1ce4_e5b9);
        mixed = (mixed ^ (mixed >> 27)).wrapping_mul(0x94d0_49bb_1331_11eb);
        mixed ^ (mixed >> 31)
    }

    pub fn below(&mut self, end: usize) -> usize {
        (self.number() % end as u64) as usize
    }

    /// Whether something that happens once in so many times does.
    pub fn once_in(&mut self, times: usize) -> bool {
        self.below(times) == 0
    }

    pub fn pick<T: Copy>(&mut self, from: &[T]) -> T {
        from[self.below(from.len())]
    }

    /// A number of any size, near one of the ends of its type rather often.
    pub fn i32(&mut self) -> i32 {
        match self.below(4) {
            0 => self.pick(&[0, 1, -1, i32::MIN, i32::MAX]),
            1 => self.below(256) as i32,
            _ => self.number() as i32,
        }
    }

    pub fn bytes(&mut self, longest: usize) -> Vec<u8> {
        (0..self.below(longest + 1)).map(|_| self.number() as u8).collect()
    }

    /// A text, rarely with a NUL in it, or empty.
    pub fn text(&mut self) -> String {
        let mut text: String = (0..self.below(12))
            .map(|_| self.pick(&['a', 'z', ' ', '0', 'é', '漢', '=', ',']))
            .collect();
        if self.once_in(16) {
            text.push('\0');
        }
        text
    }

    /// A text as it stands in a message: its bytes and a NUL. Rarely they aren't UTF-8.
    pub fn ended(&mut self) -> Vec<u8> {
        let mut bytes = self.text().into_bytes();
        bytes.retain(|&byte| byte != 0);
        if self.once_in(32) {
            bytes.extend(self.pick(&[&b"\xff"[..], b"\xc3", b"\xed\xa0\x80"]));
        }
        bytes.push(0);
        bytes
    }
}
