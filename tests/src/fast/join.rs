//! The join, by predicting whole rows. As long as everyone agrees no set is ever searched for.

use super::block::{self, header};
use super::keepers::Keepers;
use super::search::search;
use super::trials::{sets, trials};
use super::{Row, ROW, STRIDE};
use crate::block::BLOCK;
use crate::field::{multiply, reciprocal, subtract};
use crate::join::Joined;
use crate::letter::{Head, SHARES, SHARES_IN_BLOCK};
use crate::order::{lawful_length, SLOT};
use crate::told::Told;

/// A row for each keeper, at its number.
type Rows = [Row; 17];

pub fn join(told: Told, stamp: u32, length: u32, tray: &[u8], room: &mut [u8]) -> Joined {
    let refused = |number| Joined { number, ..Joined::default() };
    let (order, size) = (told.order, length as usize);
    if !told.lawful() {
        return refused(1);
    }
    if !lawful_length(size) {
        return refused(2);
    }
    if stamp == 0 {
        return refused(3);
    }
    if tray.len() != order.tray() || room.len() != size {
        return refused(4);
    }
    let mut rows = [[0; ROW]; 17];
    let usable = scan(told, stamp, length, tray, &mut rows);
    let m = usable.all().len() as u32;
    let need = m.saturating_sub(order.f).max(order.fewest());
    let answer = |number, set, trials| Joined { number, usable: m, need, set, trials };
    if m < order.fewest() {
        return answer(6, 0, 0);
    }
    let basis = order.t as usize + 1;
    let Some(agreed) = agreement(&rows, usable, basis, need as usize, size) else {
        return answer(7, 0, sets(m as usize, basis));
    };
    let trials = trials(usable.all(), agreed.all(), basis);
    let constants = constants(&rows, &agreed.all()[..basis], size);
    if constants[..size].contains(&256) {
        return answer(8, agreed.set(), trials);
    }
    for (byte, &constant) in room.iter_mut().zip(&constants) {
        *byte = constant as u8;
    }
    answer(0, agreed.set(), trials)
}

/// The keepers whose letters can be used; their share words go to their rows.
fn scan(told: Told, stamp: u32, length: u32, tray: &[u8], rows: &mut Rows) -> Keepers {
    let mut usable = Keepers::none();
    for (slot, keeper) in tray.chunks_exact(SLOT).zip(1..) {
        let head = Head { told, keeper, stamp, length };
        if read_letter(head, slot, &mut rows[keeper as usize]) {
            usable.push(keeper as u16);
        }
    }
    usable
}

/// Whether the slot holds a good letter with exactly this head; its share words go to the row.
fn read_letter(head: Head, slot: &[u8], row: &mut Row) -> bool {
    let (letter, rest) = slot.split_at(head.blocks() * BLOCK);
    for (place, bytes) in letter.chunks_exact(BLOCK).enumerate() {
        let Some(words) = block::read(bytes) else {
            return false;
        };
        if words[..SHARES] != header(head, place) {
            return false;
        }
        let shares = &words[SHARES..SHARES + SHARES_IN_BLOCK];
        row[place * SHARES_IN_BLOCK..][..SHARES_IN_BLOCK].copy_from_slice(shares);
    }
    let past = row[head.length as usize..].iter().fold(0, |any, &word| any | word);
    past == 0 && rest.iter().fold(0, |any, &byte| any | byte) == 0
}

/// The keepers that match the only polynomials that can match `need` of them, if there are any.
fn agreement(
    rows: &Rows,
    usable: Keepers,
    basis: usize,
    need: usize,
    length: usize,
) -> Option<Keepers> {
    let mut agreed = usable;
    let mut from = 0;
    while let Some(odd) = first_odd(rows, agreed.all(), basis, from, length) {
        // Only one polynomial can reach need at this word, so whoever misses it is out for good.
        let words = std::array::from_fn(|keeper| rows[keeper][odd]);
        agreed = search(&agreed, &words, basis, need)?;
        from = odd + 1;
    }
    Some(agreed)
}

/// The first place at which some keeper's word isn't what the first ones predict; all are known to
/// agree before `from`.
fn first_odd(
    rows: &Rows,
    keepers: &[u16],
    basis: usize,
    from: usize,
    length: usize,
) -> Option<usize> {
    let (basis, others) = keepers.split_at(basis);
    let mut factors = [[0; 8]; 16];
    for (factors, &keeper) in factors.iter_mut().zip(others) {
        *factors = factors_at(basis, keeper);
    }
    for start in (from / STRIDE * STRIDE..length).step_by(STRIDE) {
        let mut differ = [0; STRIDE];
        for (factors, &keeper) in factors.iter().zip(others) {
            let predicted = predict(rows, basis, factors, start);
            let words = &rows[usize::from(keeper)][start..start + STRIDE];
            for (differ, (&word, predicted)) in differ.iter_mut().zip(words.iter().zip(predicted)) {
                *differ |= word ^ predicted;
            }
        }
        if let Some(i) = differ.iter().position(|&differ| differ != 0) {
            return Some(start + i);
        }
    }
    None
}

/// The constants of the basis's polynomials.
fn constants(rows: &Rows, basis: &[u16], length: usize) -> Row {
    let factors = factors_at(basis, 0);
    let mut constants = [0; ROW];
    for start in (0..length).step_by(STRIDE) {
        let predicted = predict(rows, basis, &factors, start);
        constants[start..start + STRIDE].copy_from_slice(&predicted);
    }
    constants
}

/// What to weigh the basis's words with to get their polynomial's value at x.
fn factors_at(basis: &[u16], x: u16) -> [u16; 8] {
    let x = u32::from(x);
    let mut factors = [0; 8];
    for (factor, &own) in factors.iter_mut().zip(basis) {
        let own = u32::from(own);
        let (mut above, mut below) = (1, 1);
        for other in basis.iter().map(|&other| u32::from(other)).filter(|&other| other != own) {
            above = multiply(above, subtract(x, other));
            below = multiply(below, subtract(own, other));
        }
        *factor = multiply(above, reciprocal(below)) as u16;
    }
    factors
}

fn predict(rows: &Rows, basis: &[u16], factors: &[u16; 8], start: usize) -> [u16; STRIDE] {
    let mut sums = [0u32; STRIDE];
    for (&keeper, &factor) in basis.iter().zip(factors) {
        let words = &rows[usize::from(keeper)][start..start + STRIDE];
        for (sum, &word) in sums.iter_mut().zip(words) {
            *sum += u32::from(word) * u32::from(factor);
        }
    }
    // 256 is -1: folding brings a sum of eight products into 16 bits, where a remainder is cheap
    sums.map(|sum| ((sum & 255) + 8 * 257 - (sum >> 8)) as u16 % 257)
}
