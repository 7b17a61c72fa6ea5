//! `std::simd`: the only vector type that is used. Its 64 bytes are compared in parallel, as eight words.

pub mod prelude {
    /// A 64-byte vector.
    #[allow(non_camel_case_types)]
    #[derive(Clone, Copy, Debug, PartialEq, Eq)]
    pub struct u8x64([u64; 8]);

    /// A 64-byte mask: a nonzero byte means true.
    #[derive(Clone, Copy, Debug, PartialEq, Eq)]
    pub struct Mask([u64; 8]);

    /// The value 1 in each byte.
    const ONES: u64 = 0x0101_0101_0101_0101;

    impl u8x64 {
        /// Loads the first 64 bytes of a slice, which must be at least that long.
        #[inline(always)]
        pub fn from_slice(bytes: &[u8]) -> Self {
            let mut words = [0; 8];
            for (word, eight) in words.iter_mut().zip(bytes[..64].chunks_exact(8)) {
                let mut all = [0; 8];
                all.copy_from_slice(eight);
                *word = u64::from_le_bytes(all);
            }
            u8x64(words)
        }

        /// Repeats a byte 64 times.
        #[inline(always)]
        pub fn splat(byte: u8) -> Self {
            u8x64([ONES * u64::from(byte); 8])
        }

        /// Returns which bytes differ.
        #[inline(always)]
        pub fn simd_ne(self, other: Self) -> Mask {
            let mut words = self.0;
            for (word, others) in words.iter_mut().zip(other.0) {
                *word ^= others;
            }
            Mask(words)
        }
    }

    /// Returns a word in which bit k is set if byte k isn't 0.
    #[inline]
    fn bits_of(word: u64) -> u64 {
        let low = (word & (0x7f * ONES)) + 0x7f * ONES;
        let high = ((low | word) >> 7) & ONES;
        high.wrapping_mul(0x0102_0408_1020_4080) >> 56
    }

    impl Mask {
        /// Returns a word in which bit k is set if byte k is true.
        #[inline(always)]
        pub fn to_bitmask(self) -> u64 {
            if self.0.iter().fold(0, |all, word| all | word) == 0 {
                return 0;
            }
            self.0.iter().rev().fold(0, |all, word| all << 8 | bits_of(*word))
        }
    }

    #[cfg(test)]
    mod tests {
        use super::*;

        #[test]
        fn a_bit_a_byte() {
            for k in 0..64 {
                for byte in [1, 0x7f, 0x80, 0xff] {
                    let mut bytes = [0x5au8; 65];
                    bytes[k] ^= byte;
                    let mask = u8x64::from_slice(&bytes).simd_ne(u8x64::splat(0x5a));
                    assert_eq!(mask.to_bitmask(), 1 << k);
                }
            }
            let all = u8x64::splat(1).simd_ne(u8x64::splat(0));
            assert_eq!(all.to_bitmask(), u64::MAX);
        }
    }
}
