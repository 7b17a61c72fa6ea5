//! The `byteorder` crate: little-endian numbers in bytes. A slice that is too short panics, as in the original.

/// Numbers in bytes.
pub trait ByteOrder {
    fn read_u16(bytes: &[u8]) -> u16;
    fn read_u32(bytes: &[u8]) -> u32;
    fn read_u64(bytes: &[u8]) -> u64;
    fn write_u16(bytes: &mut [u8], word: u16);
    fn write_u32(bytes: &mut [u8], word: u32);
    fn write_u64(bytes: &mut [u8], word: u64);
    fn read_u16_into(bytes: &[u8], words: &mut [u16]);
    fn write_u16_into(words: &[u16], bytes: &mut [u8]);
}

/// The low byte first.
pub enum LittleEndian {}

macro_rules! number {
    ($read:ident, $write:ident, $of:ty, $size:literal) => {
        #[inline]
        fn $read(bytes: &[u8]) -> $of {
            let mut all = [0; $size];
            all.copy_from_slice(&bytes[..$size]);
            <$of>::from_le_bytes(all)
        }

        #[inline]
        fn $write(bytes: &mut [u8], word: $of) {
            bytes[..$size].copy_from_slice(&word.to_le_bytes());
        }
    };
}

impl ByteOrder for LittleEndian {
    number!(read_u16, write_u16, u16, 2);
    number!(read_u32, write_u32, u32, 4);
    number!(read_u64, write_u64, u64, 8);

    fn read_u16_into(bytes: &[u8], words: &mut [u16]) {
        assert_eq!(bytes.len(), 2 * words.len());
        for (word, two) in words.iter_mut().zip(bytes.chunks_exact(2)) {
            *word = Self::read_u16(two);
        }
    }

    fn write_u16_into(words: &[u16], bytes: &mut [u8]) {
        assert_eq!(bytes.len(), 2 * words.len());
        for (word, two) in words.iter().zip(bytes.chunks_exact_mut(2)) {
            Self::write_u16(two, *word);
        }
    }
}
