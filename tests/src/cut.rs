//! The cut of a secret into a tray, and of a list of words into rows.

use crate::field::value;
use crate::letter::{Head, Letter};
use crate::order::{lawful_length, Order};
use crate::told::Told;

/// The number that this cut gets, 0 where it is done.
fn refusal(told: Told, stamp: u32, secret: &[u8], random: &[u16], tray: &[u8]) -> u32 {
    let order = told.order;
    if !told.lawful() {
        1
    } else if !lawful_length(secret.len()) {
        2
    } else if stamp == 0 {
        3
    } else if random.len() != secret.len() * order.t as usize || tray.len() != order.tray() {
        4
    } else if random.iter().any(|&word| word > 256) {
        5
    } else {
        0
    }
}

pub fn cut(told: Told, stamp: u32, secret: &[u8], random: &[u16], tray: &mut [u8]) -> u32 {
    let number = refusal(told, stamp, secret, random, tray);
    if number == 0 {
        let slots = letters(told, stamp, secret, random);
        tray.copy_from_slice(&slots.map(|letter| letter.slot()).collect::<Vec<_>>().concat());
    }
    number
}

/// The letters of keepers 1 to n.
fn letters<'a>(
    told: Told,
    stamp: u32,
    secret: &'a [u8],
    random: &'a [u16],
) -> impl Iterator<Item = Letter> + 'a {
    let length = secret.len() as u32;
    let constants: Vec<u32> = secret.iter().map(|&byte| u32::from(byte)).collect();
    (1..=told.order.n).map(move |keeper| Letter {
        head: Head { told, keeper, stamp, length },
        shares: shares(told.order.t as usize, &constants, random, keeper),
    })
}

/// A keeper's share words, of constants that may be 256.
pub fn shares(t: usize, constants: &[u32], random: &[u16], keeper: u32) -> Vec<u32> {
    let share = |(&constant, higher): (&u32, &[u16])| {
        let mut coefficients = vec![constant];
        coefficients.extend(higher.iter().map(|&word| u32::from(word)));
        value(&coefficients, keeper)
    };
    constants.iter().zip(random.chunks(t)).map(share).collect()
}

/// The number that a cut of words gets, 0 where it is done. Each keeper has a row of as many words.
fn refusal_of_words(order: Order, constants: &[u16], random: &[u16], rows: &[u16]) -> u32 {
    let count = constants.len();
    if !order.lawful() {
        1
    } else if !lawful_length(count) {
        2
    } else if random.len() != count * order.t as usize || rows.len() != count * order.n as usize {
        4
    } else if constants.iter().chain(random).any(|&word| word > 256) {
        5
    } else {
        0
    }
}

/// The rows of keepers 1 to n, end to end.
pub fn cut_words(order: Order, constants: &[u16], random: &[u16], rows: &mut [u16]) -> u32 {
    let number = refusal_of_words(order, constants, random, rows);
    if number == 0 {
        let constants: Vec<u32> = constants.iter().map(|&word| u32::from(word)).collect();
        for (row, keeper) in rows.chunks_mut(constants.len()).zip(1..) {
            let shares = shares(order.t as usize, &constants, random, keeper);
            row.iter_mut().zip(shares).for_each(|(word, share)| *word = share as u16);
        }
    }
    number
}
