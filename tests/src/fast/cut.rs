//! The cut, a coefficient row at a time.

use super::block::{header, write, Words};
use super::{Row, ROW};
use crate::block::{BLOCK, WORDS};
use crate::letter::{Head, SHARES, SHARES_IN_BLOCK};
use crate::order::{lawful_length, SLOT};
use crate::told::Told;

pub fn cut(told: Told, stamp: u32, secret: &[u8], random: &[u16], tray: &mut [u8]) -> u32 {
    let length = secret.len();
    if !told.lawful() {
        return 1;
    }
    if !lawful_length(length) {
        return 2;
    }
    if stamp == 0 {
        return 3;
    }
    let t = told.order.t as usize;
    if random.len() != length * t || tray.len() != told.order.tray() {
        return 4;
    }
    if random.iter().fold(0, |largest, &word| largest.max(word)) > 256 {
        return 5;
    }
    let mut rows = [[0; ROW]; 8];
    let rows = &mut rows[..t + 1];
    for (word, &byte) in rows[0].iter_mut().zip(secret) {
        *word = u16::from(byte);
    }
    for (i, coefficients) in random.chunks_exact(t).enumerate() {
        for (row, &coefficient) in rows[1..].iter_mut().zip(coefficients) {
            row[i] = coefficient;
        }
    }
    for (slot, keeper) in tray.chunks_exact_mut(SLOT).zip(1..) {
        let shares = values(rows, keeper, length);
        let head = Head { told, keeper: keeper.into(), stamp, length: length as u32 };
        write_letter(head, &shares[..length], slot);
    }
    0
}

/// Horner's rule on whole rows. Every step stays below 17 times 257, so 16-bit lanes are enough.
fn values(rows: &[Row], keeper: u16, length: usize) -> Row {
    let (last, lower) = rows.split_last().expect("there is a row for the constants");
    let mut values = *last;
    for row in lower.iter().rev() {
        for (value, &coefficient) in values[..length].iter_mut().zip(row) {
            *value = (*value * keeper + coefficient) % 257;
        }
    }
    values
}

fn write_letter(head: Head, shares: &[u16], slot: &mut [u8]) {
    for (place, part) in shares.chunks(SHARES_IN_BLOCK).enumerate() {
        let mut words: Words = [0; WORDS];
        words[..SHARES].copy_from_slice(&header(head, place));
        words[SHARES..SHARES + part.len()].copy_from_slice(part);
        write(&mut words, &mut slot[place * BLOCK..][..BLOCK]);
    }
    slot[head.blocks() * BLOCK..].fill(0);
}
