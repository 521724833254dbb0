//! Stands in for the crate `foldhash`: only `fast::FixedState`, a hasher with one fixed seed.

pub mod fast {
    use std::hash::{BuildHasher, Hasher};

    const SEED: u64 = 0x243f_6a88_85a3_08d3;
    const FACTOR: u64 = 0x9e37_79b9_7f4a_7c15;

    /// Makes hashers that all start from the same seed.
    #[derive(Clone, Copy, Debug, Default)]
    pub struct FixedState;

    impl BuildHasher for FixedState {
        type Hasher = FoldHasher;

        fn build_hasher(&self) -> FoldHasher {
            FoldHasher { sum: SEED }
        }
    }

    /// Folds each word into the sum by one wide multiplication.
    #[derive(Clone, Debug)]
    pub struct FoldHasher {
        sum: u64,
    }

    /// Both halves of the wide product, so that every bit reaches the low and the high end.
    #[inline]
    fn fold(a: u64, b: u64) -> u64 {
        let wide = u128::from(a) * u128::from(b);
        (wide as u64) ^ ((wide >> 64) as u64)
    }

    #[inline]
    fn word(bytes: &[u8]) -> u64 {
        let mut eight = [0; 8];
        eight[..bytes.len()].copy_from_slice(bytes);
        u64::from_le_bytes(eight)
    }

    impl Hasher for FoldHasher {
        #[inline]
        fn write(&mut self, bytes: &[u8]) {
            let mut pairs = bytes.chunks_exact(16);
            for pair in &mut pairs {
                let (low, high) = pair.split_at(8);
                self.sum = fold(word(low) ^ self.sum, word(high) ^ FACTOR);
            }
            let rest = pairs.remainder();
            if !rest.is_empty() {
                let (low, high) = rest.split_at(rest.len().min(8));
                self.sum = fold(word(low) ^ self.sum, word(high) ^ FACTOR);
            }
        }

        #[inline]
        fn write_u8(&mut self, value: u8) {
            self.write_u64(u64::from(value));
        }

        #[inline]
        fn write_u32(&mut self, value: u32) {
            self.write_u64(u64::from(value));
        }

        #[inline]
        fn write_u64(&mut self, value: u64) {
            self.sum = fold(value ^ self.sum, FACTOR);
        }

        #[inline]
        fn write_usize(&mut self, value: usize) {
            self.write_u64(value as u64);
        }

        #[inline]
        fn finish(&self) -> u64 {
            self.sum
        }
    }
}
