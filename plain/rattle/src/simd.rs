//! Vectors of bytes, as the compiler makes them of arrays.

/// Lanes of a vector.
#[derive(Clone, Copy, Debug)]
pub struct Simd<T, const N: usize>([T; N]);

/// What a comparison of vectors gives: a lane is 0xff where it holds, and else 0.
#[derive(Clone, Copy, Debug)]
pub struct Mask<const N: usize>([u8; N]);

/// The names that sources import together.
pub mod prelude {
    pub use super::{Mask, Simd};
}

#[inline(always)]
fn each<const N: usize>(left: [u8; N], right: [u8; N], lane: impl Fn(u8, u8) -> u8) -> [u8; N] {
    let mut lanes = [0; N];
    for index in 0..N {
        lanes[index] = lane(left[index], right[index]);
    }
    lanes
}

#[inline(always)]
fn lane(is_so: bool) -> u8 {
    u8::from(is_so).wrapping_neg()
}

impl<const N: usize> Simd<u8, N> {
    /// The first `N` bytes of a slice, which has them.
    #[inline(always)]
    pub fn from_slice(bytes: &[u8]) -> Self {
        let mut lanes = [0; N];
        lanes.copy_from_slice(&bytes[..N]);
        Simd(lanes)
    }

    /// One byte in each lane.
    #[inline(always)]
    pub fn splat(byte: u8) -> Self {
        Simd([byte; N])
    }

    /// Writes the lanes at the front of a slice, which has room.
    #[inline(always)]
    pub fn copy_to_slice(self, bytes: &mut [u8]) {
        bytes[..N].copy_from_slice(&self.0);
    }

    /// The lesser of each two lanes.
    #[inline(always)]
    pub fn simd_min(self, other: Self) -> Self {
        #[cfg(target_arch = "x86_64")]
        if N < 16 {
            return Simd(sse2::min(self.0, other.0));
        }
        Simd(each(self.0, other.0, |left, right| left.min(right)))
    }

    /// Where lanes are equal.
    #[inline(always)]
    pub fn simd_eq(self, other: Self) -> Mask<N> {
        #[cfg(target_arch = "x86_64")]
        if N < 16 {
            return Mask(sse2::equal(self.0, other.0));
        }
        Mask(each(self.0, other.0, |left, right| lane(left == right)))
    }

    /// Where lanes are at least those of the other.
    #[inline(always)]
    pub fn simd_ge(self, other: Self) -> Mask<N> {
        Mask(each(self.0, other.0, |left, right| lane(left >= right)))
    }

    /// Where lanes are below those of the other.
    #[inline(always)]
    pub fn simd_lt(self, other: Self) -> Mask<N> {
        Mask(each(self.0, other.0, |left, right| lane(left < right)))
    }
}

impl<const N: usize> Mask<N> {
    /// A bit for each of up to 64 lanes, that of the first lowest.
    #[inline(always)]
    pub fn to_bitmask(self) -> u64 {
        let mut bits = 0;
        for (index, some) in self.0.chunks(16).enumerate() {
            let mut lanes = [0; 16];
            lanes[..some.len()].copy_from_slice(some);
            bits |= sixteen(lanes) << (16 * index);
        }
        bits
    }

    /// Whether any lane holds.
    #[inline(always)]
    pub fn any(self) -> bool {
        self.to_bitmask() != 0
    }
}

// The highest bit of each of sixteen lanes, which are 0 or 0xff.
#[cfg(target_arch = "x86_64")]
use sse2::bits as sixteen;
#[cfg(not(target_arch = "x86_64"))]
use words::bits as sixteen;

#[cfg(any(test, not(target_arch = "x86_64")))]
mod words {
    // The lowest bit of each byte of a word comes to its place in the highest byte of a product.
    #[inline(always)]
    pub fn bits(lanes: [u8; 16]) -> u64 {
        let eight =
            |word: u64| (word & 0x0101_0101_0101_0101).wrapping_mul(0x0102_0408_1020_4080) >> 56;
        let word = u128::from_le_bytes(lanes);
        eight(word as u64) | eight((word >> 64) as u64) << 8
    }
}

// What the compiler doesn't make of arrays by itself: vectors of fewer than sixteen bytes, and the bits of lanes.
#[cfg(target_arch = "x86_64")]
mod sse2 {
    use core::arch::x86_64::{__m128i, _mm_cmpeq_epi8, _mm_min_epu8, _mm_movemask_epi8};
    use core::mem::transmute;

    #[inline(always)]
    pub fn min<const N: usize>(left: [u8; N], right: [u8; N]) -> [u8; N] {
        each(left, right, _mm_min_epu8)
    }

    #[inline(always)]
    pub fn equal<const N: usize>(left: [u8; N], right: [u8; N]) -> [u8; N] {
        each(left, right, _mm_cmpeq_epi8)
    }

    // An instruction of SSE2 on up to sixteen bytes.
    #[inline(always)]
    fn each<const N: usize>(
        left: [u8; N],
        right: [u8; N],
        instruction: unsafe fn(__m128i, __m128i) -> __m128i,
    ) -> [u8; N] {
        let (mut of_left, mut of_right) = ([0; 16], [0; 16]);
        of_left[..N].copy_from_slice(&left);
        of_right[..N].copy_from_slice(&right);
        // SAFETY: each processor of x86-64 has SSE2, and any sixteen bytes are a vector, as a vector is sixteen bytes.
        let lanes: [u8; 16] = unsafe {
            let (left, right) =
                (transmute::<[u8; 16], __m128i>(of_left), transmute::<[u8; 16], __m128i>(of_right));
            transmute(instruction(left, right))
        };
        let mut front = [0; N];
        front.copy_from_slice(&lanes[..N]);
        front
    }

    #[inline(always)]
    pub fn bits(lanes: [u8; 16]) -> u64 {
        // SAFETY: each processor of x86-64 has SSE2, and any sixteen bytes are a vector.
        let bits = unsafe { _mm_movemask_epi8(transmute::<[u8; 16], __m128i>(lanes)) };
        u64::from(bits as u16)
    }
}

#[cfg(test)]
mod tests {
    use super::*;

    // The bits of lanes of 4, 8, 16 and 32 bytes, of which each in turn holds.
    fn bits_of_each<const N: usize>() {
        for index in 0..N {
            let mut bytes = [1; N];
            bytes[index] = 0;
            let lanes = Simd::<u8, N>::from_slice(&bytes);
            assert_eq!(lanes.simd_eq(Simd::splat(0)).to_bitmask(), 1 << index);
            assert_eq!(lanes.simd_lt(Simd::splat(1)).to_bitmask(), 1 << index);
            assert_eq!(
                lanes.simd_ge(Simd::splat(1)).to_bitmask(),
                !(1 << index) & (u64::MAX >> (64 - N))
            );
            let mut least = [9; N];
            lanes.simd_min(Simd::splat(5)).copy_to_slice(&mut least);
            assert_eq!(least, bytes);
        }
    }

    #[test]
    fn lanes() {
        bits_of_each::<4>();
        bits_of_each::<8>();
        bits_of_each::<16>();
        bits_of_each::<32>();
        assert!(!Simd::<u8, 16>::splat(1).simd_eq(Simd::splat(0)).any());
    }

    #[test]
    fn bits_by_words() {
        let mut lanes = [0; 16];
        (lanes[0], lanes[9], lanes[15]) = (0xff, 0xff, 0xff);
        assert_eq!(words::bits(lanes), 0b1000_0010_0000_0001);
        assert_eq!(sixteen(lanes), words::bits(lanes));
    }
}
