//! A small xorshift generator, so that a seed and a case number alone
//! reproduce what a test did.

use std::ops::Range;

pub struct Random(u64);

impl Random {
    /// Xorshift needs a state that is not 0; the multiplication spreads seeds
    /// that lie near each other.
    pub fn seeded(seed: u64) -> Random {
        let state = seed.wrapping_add(1).wrapping_mul(0x9E37_79B9_7F4A_7C15);
        Random(state | 1)
    }

    /// Each case has its own numbers, so that it can be run alone.
    pub fn of_case(case: usize) -> Random {
        let mut of_seed = Random::seeded(seed());
        Random::seeded(of_seed.next() ^ case as u64)
    }

    pub fn next(&mut self) -> u64 {
        self.0 ^= self.0 << 13;
        self.0 ^= self.0 >> 7;
        self.0 ^= self.0 << 17;
        self.0.wrapping_mul(0x2545_F491_4F6C_DD1D)
    }

    /// A number below the bound, which is not 0.
    pub fn below(&mut self, bound: usize) -> usize {
        ((self.next() >> 32) as usize) % bound
    }

    pub fn one_in(&mut self, bound: usize) -> bool {
        self.below(bound) == 0
    }

    pub fn pick<T: Copy>(&mut self, from: &[T]) -> T {
        from[self.below(from.len())]
    }

    pub fn fill(&mut self, bytes: &mut [u8]) {
        for chunk in bytes.chunks_mut(8) {
            chunk.copy_from_slice(&self.next().to_le_bytes()[..chunk.len()]);
        }
    }

    pub fn bytes(&mut self, length: usize) -> Vec<u8> {
        let mut bytes = vec![0; length];
        self.fill(&mut bytes);
        bytes
    }
}

/// The seed of the run: fixed, or the one that STATION_SEED names.
pub fn seed() -> u64 {
    number("STATION_SEED").unwrap_or(20_250_701)
}

/// The cases of a test: all, or the one that STATION_CASE names.
pub fn cases(count: usize) -> Range<usize> {
    match number("STATION_CASE") {
        Some(case) => case as usize..case as usize + 1,
        None => 0..count,
    }
}

fn number(name: &str) -> Option<u64> {
    let text = std::env::var(name).ok()?;
    let parsed = text.parse();
    Some(parsed.unwrap_or_else(|_| panic!("{name} is a decimal number, not {text}")))
}
