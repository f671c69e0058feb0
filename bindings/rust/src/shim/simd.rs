//! Vectors of sixteen bytes, as two 64-bit words: safe code that is the same on every processor.
use core::ops::BitOr;

/// A vector of sixteen bytes. The first lane is the lowest byte of the first word.
// (the name is that of the standard library)
#[allow(non_camel_case_types)]
#[derive(Clone, Copy)]
pub struct u8x16([u64; 2]);

/// A mask of lanes: the highest bit of each byte is set if the lane is.
#[derive(Clone, Copy)]
pub struct Mask([u64; 2]);

/// Comparisons lane by lane.
pub trait SimdPartialEq {
    fn simd_eq(self, other: Self) -> Mask;
    fn simd_ne(self, other: Self) -> Mask;
}

/// Comparisons by size lane by lane.
pub trait SimdPartialOrd {
    fn simd_lt(self, other: Self) -> Mask;
}

const LOW: u64 = 0x7f7f_7f7f_7f7f_7f7f;
const ONES: u64 = 0x0101_0101_0101_0101;

/// Returns a word with the highest bit of each byte set if that byte is not 0, and no other bit. No
/// byte carries into the next one.
#[inline(always)]
fn marked(word: u64) -> u64 {
    (((word & LOW) + LOW) | word) & !LOW
}

/// Returns a word with the highest bit of each byte set if that byte of `word` is less than that of
/// `other`, and no other bit. No byte borrows from the next one.
#[inline(always)]
fn less(word: u64, other: u64) -> u64 {
    let low_is_not_less = (word | !LOW) - (other & LOW);
    ((!word & other) | (!(word ^ other) & !low_is_not_less)) & !LOW
}

/// Returns the highest bits of the bytes, that of the lowest byte as the lowest bit. The
/// multiplication moves each to its own bit of the highest byte.
#[inline(always)]
fn gathered(word: u64) -> u64 {
    (word >> 7).wrapping_mul(0x0102_0408_1020_4080) >> 56
}

impl u8x16 {
    #[inline(always)]
    pub fn splat(byte: u8) -> u8x16 {
        u8x16([u64::from(byte) * ONES; 2])
    }

    /// Returns the first sixteen bytes of a slice.
    ///
    /// # Panics
    ///
    /// Panics if the slice is shorter.
    #[inline(always)]
    pub fn from_slice(bytes: &[u8]) -> u8x16 {
        let word = |bytes: &[u8]| u64::from_le_bytes(bytes.try_into().expect("eight bytes"));
        let (low, high) = bytes[..16].split_at(8);
        u8x16([word(low), word(high)])
    }
}

impl SimdPartialEq for u8x16 {
    #[inline(always)]
    fn simd_eq(self, other: u8x16) -> Mask {
        let Mask([low, high]) = self.simd_ne(other);
        Mask([low ^ !LOW, high ^ !LOW])
    }

    #[inline(always)]
    fn simd_ne(self, other: u8x16) -> Mask {
        Mask([
            marked(self.0[0] ^ other.0[0]),
            marked(self.0[1] ^ other.0[1]),
        ])
    }
}

impl SimdPartialOrd for u8x16 {
    #[inline(always)]
    fn simd_lt(self, other: u8x16) -> Mask {
        Mask([less(self.0[0], other.0[0]), less(self.0[1], other.0[1])])
    }
}

impl BitOr for Mask {
    type Output = Mask;

    #[inline(always)]
    fn bitor(self, other: Mask) -> Mask {
        Mask([self.0[0] | other.0[0], self.0[1] | other.0[1]])
    }
}

impl Mask {
    /// Returns one bit for each lane, that of the first lane as the lowest.
    #[inline(always)]
    pub fn to_bitmask(self) -> u64 {
        gathered(self.0[0]) | gathered(self.0[1]) << 8
    }
}

#[cfg(test)]
mod tests {
    use super::*;

    /// Each pair of bytes in each lane, among other lanes that are equal to it or not.
    #[test]
    fn a_bit_for_each_lane() {
        for (a, b, lane) in (0..=255)
            .flat_map(|a| (0..=255).flat_map(move |b| (0..16).map(move |lane| (a, b, lane))))
        {
            for others in [a, b, a ^ 1, a ^ 128, 0, 255] {
                let mut bytes = [others; 17];
                bytes[lane] = a;
                let (lanes, splat) = (u8x16::from_slice(&bytes), u8x16::splat(b));
                let mask = |is_lane: bool, are_others: bool| {
                    (u64::from(is_lane) << lane) | (u64::from(are_others) * (0xffff ^ (1 << lane)))
                };
                let equal = mask(a == b, others == b);
                assert_eq!(lanes.simd_eq(splat).to_bitmask(), equal);
                assert_eq!(lanes.simd_ne(splat).to_bitmask(), equal ^ 0xffff);
                let less = mask(a < b, others < b);
                assert_eq!(lanes.simd_lt(splat).to_bitmask(), less);
                let more = mask(b < a, b < others);
                assert_eq!(splat.simd_lt(lanes).to_bitmask(), more);
                let either = lanes.simd_eq(splat) | lanes.simd_eq(u8x16::splat(others));
                assert_eq!(either.to_bitmask(), equal | mask(a == others, true));
            }
        }
    }
}
