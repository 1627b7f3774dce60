//! Stands in for atoi 2.0: a number at the start of bytes, after a sign if there is one.

pub trait Unsigned: Copy {
    const ZERO: Self;

    /// So many digits are no greater than the type's greatest number, whichever they are.
    const SAFE_DIGITS: usize;

    fn append(self, digit: u8) -> Self;

    fn append_checked(self, digit: u8) -> Option<Self>;
}

macro_rules! unsigned {
    ($($type:ty)*) => {$(
        impl Unsigned for $type {
            const ZERO: Self = 0;

            const SAFE_DIGITS: usize = <$type>::MAX.ilog10() as usize;

            #[inline(always)]
            fn append(self, digit: u8) -> Self {
                self.wrapping_mul(10).wrapping_add(Self::from(digit))
            }

            fn append_checked(self, digit: u8) -> Option<Self> {
                self.checked_mul(10)?.checked_add(Self::from(digit))
            }
        }
    )*};
}

unsigned!(u32 u64 usize);

/// `None` where there is no number, or it is out of the type's range. A sign alone is 0.
pub fn atoi<I: Unsigned>(text: &[u8]) -> Option<I> {
    match text.first()? {
        b'-' => negative(&text[1..]),
        b'+' => positive(&text[1..]),
        b'0'..=b'9' => positive(text),
        _ => None,
    }
}

fn positive<I: Unsigned>(digits: &[u8]) -> Option<I> {
    let mut number = I::ZERO;
    for (index, byte) in digits.iter().enumerate() {
        let digit = match byte {
            b'0'..=b'9' => byte - b'0',
            _ => break,
        };
        number = if index < I::SAFE_DIGITS {
            number.append(digit)
        } else {
            number.append_checked(digit)?
        };
    }
    Some(number)
}

fn negative<I: Unsigned>(digits: &[u8]) -> Option<I> {
    let digits = digits.iter().take_while(|byte| byte.is_ascii_digit());
    digits.fold(Some(I::ZERO), |zero, digit| zero.filter(|_| *digit == b'0'))
}
