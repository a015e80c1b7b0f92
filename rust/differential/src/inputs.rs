//! Words to compare on.

use std::array;

use crate::{Limbs, P};

/// 2^32 - 1, which is 2^64 modulo p. Both sides correct a lost carry by it.
const EPSILON: u64 = 0xFFFF_FFFF;

/// Its square, which is 2^128 modulo p.
const EPSILON_SQUARED: u64 = EPSILON * EPSILON;

/// Words at which something turns: a sum's first or second carry, a difference's borrows, a reduction's last
/// subtraction, the halves of a product.
pub fn edge_words() -> Vec<u64> {
    let mut words = Vec::new();
    for middle in [
        0,
        1 << 32,
        1 << 63,
        EPSILON_SQUARED,
        P / 2,
        P,
        // Two words about here are where a sum's second carry begins.
        P + EPSILON / 2,
    ] {
        words.extend((-2..=2).map(|step| middle.wrapping_add_signed(step)));
    }
    words.extend([
        3,
        7,
        1 << 31,
        (1 << 31) - 1,
        1 << 33,
        1 << 48,
        1 << 62,
        // The largest word from which a difference can borrow twice: with 2^64 - 1.
        EPSILON - 2,
        P - EPSILON,
        u64::MAX - 2,
        0x5555_5555_5555_5555,
        0xAAAA_AAAA_AAAA_AAAA,
    ]);
    words.sort_unstable();
    words.dedup();
    words
}

/// Every triple over six edge words: 216 extension values.
pub fn edge_limbs() -> Vec<Limbs> {
    let limbs = [0, 1, EPSILON, P - 1, P, u64::MAX];
    let mut values = Vec::new();
    for a in limbs {
        for b in limbs {
            values.extend(limbs.map(|c| [a, b, c]));
        }
    }
    values
}

/// A small deterministic generator (splitmix64): the same seed gives the same words on every machine.
pub struct Random {
    state: u64,
}

impl Random {
    pub fn new(seed: u64) -> Self {
        Random { state: seed }
    }

    /// Any word, all equally likely.
    pub fn uniform(&mut self) -> u64 {
        self.state = self.state.wrapping_add(0x9E37_79B9_7F4A_7C15);
        let mut z = self.state;
        z = (z ^ (z >> 30)).wrapping_mul(0xBF58_476D_1CE4_E5B9);
        z = (z ^ (z >> 27)).wrapping_mul(0x94D0_49BB_1331_11EB);
        z ^ (z >> 31)
    }

    /// A word of a mixture. Uniform words alone would almost never meet a second carry or a word at or above p: one in
    /// 2^32 is.
    pub fn word(&mut self) -> u64 {
        let size = self.uniform();
        let near = |middle: u64| {
            // Mostly a few steps away, at times some thousands, on either side.
            let step = (size >> 8) as i64 >> (40 + (size & 15));
            middle.wrapping_add_signed(if size & 16 == 0 { step } else { -step })
        };
        match self.uniform() % 8 {
            0..3 => size,
            3 => size >> (32 + size % 32),
            4 => near(P),
            5 => u64::MAX - (size >> (40 + size % 24)),
            6 => near(1 << 32),
            // All of the words at or above p, equally likely.
            _ => P + size % EPSILON,
        }
    }

    /// A number below `end`, which is not 0.
    pub fn below(&mut self, end: usize) -> usize {
        (self.uniform() % end as u64) as usize
    }

    /// True once in so many times.
    pub fn once_in(&mut self, times: usize) -> bool {
        self.below(times) == 0
    }

    pub fn pick<T: Copy>(&mut self, choices: &[T]) -> T {
        choices[self.below(choices.len())]
    }

    pub fn limbs(&mut self) -> Limbs {
        array::from_fn(|_| self.word())
    }

    pub fn words(&mut self, count: usize) -> Vec<u64> {
        (0..count).map(|_| self.word()).collect()
    }
}
