//! A block's words and check in single passes.

use crate::block::{BLOCK, WORDS};
use crate::letter::{Head, SHARES};
use crate::told::Told;

const P: u32 = 257;

/// The powers of 3; none at the places of the check words, so that a pass may run over all 256.
const WEIGHTS: [u16; WORDS] = {
    let mut weights = [0; WORDS];
    let (mut i, mut weight) = (0, 1);
    while i < WORDS - 2 {
        weights[i] = weight as u16;
        weight = weight * 3 % P;
        i += 1;
    }
    weights
};

pub type Words = [u16; WORDS];

/// The first words of the block at this place.
pub fn header(head: Head, place: usize) -> [u16; SHARES] {
    let Told { order, key } = head.told;
    let [a, b, c, d] = head.stamp.to_be_bytes().map(u16::from);
    let [t, f, n, keeper, key] =
        [order.t, order.f, order.n, head.keeper, key].map(|number| number as u16);
    let length = head.length as u16;
    [81, 1, t, f, n, keeper, a, b, c, d, length >> 8, length & 255, place as u16, key, 0, 0]
}

/// Even words of 65535 stay below 2^32: the weighted sum is right before a word is known to be small.
fn check(words: &Words) -> [u16; 2] {
    let (mut sum, mut weighted) = (0, 0);
    for (&word, &weight) in words[..WORDS - 2].iter().zip(&WEIGHTS) {
        sum += u32::from(word);
        weighted += u32::from(word) * u32::from(weight);
    }
    [(sum % P) as u16, (weighted % P) as u16]
}

pub fn write(words: &mut Words, bytes: &mut [u8]) {
    let check = check(words);
    words[WORDS - 2..].copy_from_slice(&check);
    for (pair, word) in bytes.chunks_exact_mut(2).zip(words) {
        pair.copy_from_slice(&word.to_be_bytes());
    }
}

/// The words of a good block, or nothing.
pub fn read(bytes: &[u8]) -> Option<Words> {
    debug_assert_eq!(bytes.len(), BLOCK);
    let mut words = [0; WORDS];
    for (word, pair) in words.iter_mut().zip(bytes.chunks_exact(2)) {
        *word = u16::from_be_bytes([pair[0], pair[1]]);
    }
    let largest = words.iter().fold(0, |largest, &word| largest.max(word));
    (largest <= 256 && words[WORDS - 2..] == check(&words)).then_some(words)
}
