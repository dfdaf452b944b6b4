//! Ways to spoil a slot or a tray: by accident, or as a liar would, with good checks.

use crate::block::{self, BLOCK};
use crate::field::add;
use crate::letter::{Fault, SHARES, SHARES_IN_BLOCK};
use crate::order::{LONGEST, SLOT};
use crate::random::Random;

pub fn word(slot: &[u8], place: usize, word: usize) -> u32 {
    block::words(&slot[place * BLOCK..][..BLOCK])[word]
}

/// Puts any 16-bit value into a word and leaves the check as it is.
pub fn set_word(slot: &mut [u8], place: usize, word: usize, value: u32) {
    let at = place * BLOCK + 2 * word;
    slot[at] = (value / 256) as u8;
    slot[at + 1] = (value % 256) as u8;
}

/// Makes the block's check good.
pub fn seal(slot: &mut [u8], place: usize) {
    let bytes = &mut slot[place * BLOCK..][..BLOCK];
    let mut words = block::words(bytes);
    block::seal(&mut words);
    bytes.copy_from_slice(&block::bytes(&words));
}

pub fn forge_word(slot: &mut [u8], place: usize, word: usize, value: u32) {
    set_word(slot, place, word, value);
    seal(slot, place);
}

/// A lie: another share word, with a good check.
pub fn lie(slot: &mut [u8], share: usize, value: u32) {
    forge_word(slot, share / SHARES_IN_BLOCK, SHARES + share % SHARES_IN_BLOCK, value);
}

pub fn share(slot: &[u8], share: usize) -> u32 {
    word(slot, share / SHARES_IN_BLOCK, SHARES + share % SHARES_IN_BLOCK)
}

/// Spoils a good letter or sub-letter in its block at this place, so that it reads as this number, 9 to 13, and
/// says how it then reads. What is spoiled for 13 lies past its end, which must not be the longest letter's.
pub fn spoil(slot: &mut [u8], number: u32, place: usize, random: &Random) -> Fault {
    let any = random.below(256);
    match number {
        9 => set_word(slot, place, any, random.between(257, 65_535)),
        10 => set_word(slot, place, any, add(word(slot, place, any), random.between(1, 256))),
        11 => forge_word(slot, place, random.below(2), random.between(2, 80)),
        12 => {
            // 256 is no byte, and nothing else in the header is as great as 17
            let header = *random.choose(&[2, 3, 4, 5, 6, 7, 8, 9, 10, 11, 12, 13, 15]);
            let least = if [2, 3, 4, 5, 12, 15].contains(&header) { 17 } else { 256 };
            forge_word(slot, place, header, random.between(least, 256));
        }
        _ => {
            let length = 256 * word(slot, 0, 10) + word(slot, 0, 11);
            let past = random.between(length, LONGEST as u32 - 1);
            lie(slot, past as usize, random.between(1, 256));
            return Fault { number: 13, place: 0 };
        }
    }
    Fault { number, place: place as u32 }
}

/// The slot of keeper x in a tray.
pub fn slot(tray: &mut [u8], keeper: u32) -> &mut [u8] {
    &mut tray[(keeper as usize - 1) * SLOT..][..SLOT]
}

/// Puts keeper x's slot of another tray in the place of this one's.
pub fn exchange_slot(tray: &mut [u8], other: &[u8], keeper: u32) {
    let own = (keeper as usize - 1) * SLOT;
    tray[own..][..SLOT].copy_from_slice(&other[own..][..SLOT]);
}
