//! Shared code of the tests.
#![allow(dead_code)] // (each test uses only part of this)

pub mod addresses;
pub mod differential;
pub mod hostile;

/// Pseudorandom numbers, the same as in c/tests/check.h (xorshift64*).
pub struct Chance(u64);

impl Chance {
    pub fn new(seed: u64) -> Chance {
        Chance(seed.wrapping_mul(0x9E37_79B9_7F4A_7C15) | 1)
    }

    /// Returns the next number, of 48 bits.
    pub fn next(&mut self) -> u64 {
        self.0 ^= self.0 >> 12;
        self.0 ^= self.0 << 25;
        self.0 ^= self.0 >> 27;
        self.0.wrapping_mul(2_685_821_657_736_338_717) >> 16
    }

    /// Returns a number below the bound.
    pub fn below(&mut self, bound: u32) -> u32 {
        (self.next() % u64::from(bound)) as u32
    }

    /// Returns one of these numbers at random.
    pub fn of<T: Copy>(&mut self, some: &[T]) -> T {
        some[self.below(some.len() as u32) as usize]
    }

    /// Returns the low 32 bits of the next number.
    pub fn word(&mut self) -> u32 {
        self.next() as u32
    }
}

/// Returns every address in the register table, including aliases.
pub fn addresses() -> Vec<u32> {
    let runs = addresses::RUNS.iter();
    runs.flat_map(|&(first, stride, count)| (0..count).map(move |k| first + stride * k)).collect()
}

/// Returns a digest of a string (64-bit FNV-1a), the same as in c/test.
pub fn digest(text: &str) -> u64 {
    text.bytes().fold(0xCBF2_9CE4_8422_2325, |sum, byte| (sum ^ u64::from(byte)).wrapping_mul(0x0000_0100_0000_01B3))
}
