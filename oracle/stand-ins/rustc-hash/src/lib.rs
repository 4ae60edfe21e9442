//! Stands for the crate rustc-hash, written from document 01: the hash starts at 0, and each word that comes turns it by five bits,
//! is mixed in by exclusive or, and the result is multiplied by `FACTOR`, of which 64 bits stay.
//! Every number written is one word, and bytes are one word each, where the crate groups them.

use std::hash::Hasher;

const FACTOR: u64 = 0x517c_c1b7_2722_0a95;

#[derive(Debug, Default, Clone, Copy)]
pub struct FxHasher {
    hash: u64,
}

impl FxHasher {
    #[inline]
    fn take(&mut self, word: u64) {
        self.hash = (self.hash.rotate_left(5) ^ word).wrapping_mul(FACTOR);
    }
}

impl Hasher for FxHasher {
    #[inline]
    fn write(&mut self, bytes: &[u8]) {
        for &byte in bytes {
            self.take(byte.into());
        }
    }

    #[inline]
    fn write_u8(&mut self, word: u8) {
        self.take(word.into());
    }

    #[inline]
    fn write_u16(&mut self, word: u16) {
        self.take(word.into());
    }

    #[inline]
    fn write_u32(&mut self, word: u32) {
        self.take(word.into());
    }

    #[inline]
    fn write_u64(&mut self, word: u64) {
        self.take(word);
    }

    #[inline]
    fn write_usize(&mut self, word: usize) {
        self.take(word as u64);
    }

    #[inline]
    fn finish(&self) -> u64 {
        self.hash
    }
}

#[cfg(test)]
mod tests {
    use super::*;
    use std::hash::Hash;

    fn hash(value: impl Hash) -> u64 {
        let mut hasher = FxHasher::default();
        value.hash(&mut hasher);
        hasher.finish()
    }

    #[test]
    fn nothing_and_zeros_hash_to_zero() {
        assert_eq!(FxHasher::default().finish(), 0);
        assert_eq!(hash((0u16, 0u64, 0u8)), 0);
    }

    #[test]
    fn one_word_is_multiplied_by_the_factor() {
        assert_eq!(hash(1u16), 0x517c_c1b7_2722_0a95);
        assert_eq!(hash(2u32), 0xa2f9_836e_4e44_152a);
        // 3 * 0x517cc1b727220a95 = 0xf4764525_75661fbf, below 2^64.
        assert_eq!(hash(3usize), 0xf476_4525_7566_1fbf);
        // 4 * the factor is 0x1_45f306dc_9c882a54: the carry out of 64 bits is dropped.
        assert_eq!(hash(4u64), 0x45f3_06dc_9c88_2a54);
    }

    #[test]
    fn a_second_word_meets_the_hash_rotated_by_five() {
        // 0x517cc1b727220a95 rotated left by 5: the top five bits 01010 come to the low end.
        let rotated = 0x2f98_36e4_e441_52aa;
        assert_eq!(
            hash((1u16, 7u16)),
            (rotated ^ 7u64).wrapping_mul(0x517c_c1b7_2722_0a95)
        );
    }

    #[test]
    fn a_string_is_its_bytes_and_255() {
        let mut by_words = FxHasher::default();
        for word in [2u64, b'B'.into(), b'S'.into(), 255] {
            by_words.write_u64(word);
        }
        assert_eq!(hash((2u16, "BS")), by_words.finish());
    }
}
