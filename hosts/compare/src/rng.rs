//! Numbers from a seed, and memories filled from one.

use std::hash::{BuildHasher, Hasher, RandomState};

/// A new seed, from the randomness that the system gives to this process.
pub fn drawn_seed() -> u64 {
    RandomState::new().build_hasher().finish()
}

/// SplitMix64: small, fast, and the same everywhere.
#[derive(Clone)]
pub struct Rng(u64);

impl Rng {
    pub fn new(seed: u64) -> Self {
        Self(seed)
    }

    pub fn word(&mut self) -> u64 {
        self.0 = self.0.wrapping_add(0x9E37_79B9_7F4A_7C15);
        let mut mixed = self.0;
        mixed = (mixed ^ (mixed >> 30)).wrapping_mul(0xBF58_476D_1CE4_E5B9);
        mixed = (mixed ^ (mixed >> 27)).wrapping_mul(0x94D0_49BB_1331_11EB);
        mixed ^ (mixed >> 31)
    }

    /// A number below `limit`, which is small against 2^32.
    pub fn below(&mut self, limit: usize) -> usize {
        (((self.word() >> 32) * limit as u64) >> 32) as usize
    }

    pub fn one_in(&mut self, times: usize) -> bool {
        self.below(times) == 0
    }

    pub fn byte(&mut self) -> u8 {
        self.word() as u8
    }

    pub fn pick<T: Copy>(&mut self, from: &[T]) -> T {
        from[self.below(from.len())]
    }

    pub fn shuffle<T>(&mut self, items: &mut [T]) {
        for at in (1..items.len()).rev() {
            items.swap(at, self.below(at + 1));
        }
    }
}

/// Fills a memory from a seed: all 0, a few bytes among zeros, two letters, or any bytes. Many equal bytes let verify
/// run on; different ones show a byte that went to the wrong place.
pub fn fill(bytes: &mut [u8], seed: u64) {
    let mut rng = Rng::new(seed);
    let style = rng.below(4);
    let letter = u64::from(rng.byte() | 1);
    fill_words(bytes, || {
        let drawn = rng.word();
        match style {
            0 => 0,
            1 => drawn * u64::from(drawn % 16 == 1),
            2 => (drawn & 0x0101_0101_0101_0101) * letter,
            _ => drawn,
        }
    });
}

/// Fills a memory with any bytes: no change can hide among equal ones.
pub fn noise(bytes: &mut [u8], seed: u64) {
    let mut rng = Rng::new(seed);
    fill_words(bytes, || rng.word());
}

fn fill_words(bytes: &mut [u8], mut word: impl FnMut() -> u64) {
    for part in bytes.chunks_mut(8) {
        part.copy_from_slice(&word().to_le_bytes()[..part.len()]);
    }
}
