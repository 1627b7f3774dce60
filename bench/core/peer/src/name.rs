//! The names of statements and portals, which the original and ours write from numbers.

/// A name on the stack.
pub struct Name {
    bytes: [u8; 17],
    len: usize,
}

impl Name {
    #[inline(always)]
    pub fn of_statement(number: u32) -> Name {
        Name::new(b"sqlx_s_", number)
    }

    #[inline(always)]
    pub fn of_portal(number: u32) -> Name {
        Name::new(b"sqlx_p_", number)
    }

    #[inline(always)]
    pub fn as_str(&self) -> &str {
        std::str::from_utf8(&self.bytes[..self.len]).unwrap()
    }

    #[inline(always)]
    fn new(prefix: &[u8; 7], number: u32) -> Name {
        let mut bytes = [0; 17];
        if number == 0 {
            return Name { bytes, len: 0 };
        }
        let len = 8 + number.ilog10() as usize;
        bytes[..7].copy_from_slice(prefix);
        let mut rest = number;
        for byte in bytes[7..len].iter_mut().rev() {
            *byte = b'0' + (rest % 10) as u8;
            rest /= 10;
        }
        Name { bytes, len }
    }
}
