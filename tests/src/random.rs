//! A small generator (splitmix64) with a fixed seed, so that every run tries the same cases.

use std::cell::Cell;

/// Behind a cell, so that a call can draw more than one of its arguments.
pub struct Random {
    state: Cell<u64>,
}

impl Random {
    pub fn new(seed: u64) -> Random {
        println!("seed {seed}");
        Random { state: Cell::new(seed) }
    }

    pub fn next(&self) -> u64 {
        let mut z = self.state.get().wrapping_add(0x9e37_79b9_7f4a_7c15);
        self.state.set(z);
        z = (z ^ (z >> 30)).wrapping_mul(0xbf58_476d_1ce4_e5b9);
        z = (z ^ (z >> 27)).wrapping_mul(0x94d0_49bb_1331_11eb);
        z ^ (z >> 31)
    }

    /// A number below `bound`.
    pub fn below(&self, bound: usize) -> usize {
        (self.next() % bound as u64) as usize
    }

    /// A number from `low` to `high`, both included.
    pub fn between(&self, low: u32, high: u32) -> u32 {
        low + (self.next() % (u64::from(high - low) + 1)) as u32
    }

    /// True once in `times`.
    pub fn once_in(&self, times: usize) -> bool {
        self.below(times) == 0
    }

    pub fn choose<'a, T>(&self, from: &'a [T]) -> &'a T {
        &from[self.below(from.len())]
    }

    /// `count` of the numbers below `of`, in an order of their own.
    pub fn sample(&self, of: usize, count: usize) -> Vec<usize> {
        let mut all: Vec<usize> = (0..of).collect();
        for i in 0..count {
            all.swap(i, i + self.below(of - i));
        }
        all.truncate(count);
        all
    }

    pub fn bytes(&self, count: usize) -> Vec<u8> {
        (0..count).map(|_| self.next() as u8).collect()
    }

    /// Field words, 0 to 256.
    pub fn words(&self, count: usize) -> Vec<u16> {
        (0..count).map(|_| self.between(0, 256) as u16).collect()
    }
}
