//! A block as 256 words and its check, whatever the words mean.

use crate::field::{add, multiply};

pub const BLOCK: usize = 512;
pub const WORDS: usize = 256;

/// The check words stand last, and are the check of all that stand before them.
const CHECKED: usize = 254;

pub type Words = [u32; WORDS];

pub fn words(bytes: &[u8]) -> Words {
    std::array::from_fn(|i| u32::from(bytes[2 * i]) * 256 + u32::from(bytes[2 * i + 1]))
}

pub fn bytes(words: &Words) -> Vec<u8> {
    words.iter().flat_map(|&word| [(word / 256) as u8, (word % 256) as u8]).collect()
}

/// What words 254 and 255 have to be.
pub fn check(words: &Words) -> [u32; 2] {
    let (mut sum, mut weighted, mut weight) = (0, 0, 1);
    for &word in &words[..CHECKED] {
        sum = add(sum, word);
        weighted = add(weighted, multiply(word, weight));
        weight = multiply(weight, 3);
    }
    [sum, weighted]
}

pub fn checked(words: &Words) -> bool {
    words[CHECKED..] == check(words)
}

/// Makes the check good.
pub fn seal(words: &mut Words) {
    let check = check(words);
    words[CHECKED..].copy_from_slice(&check);
}
