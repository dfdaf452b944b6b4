//! The join of a tray's usable letters, by trying every set of t+1 of them.

use crate::field::value;
use crate::letter::{Head, Letter};
use crate::order::{lawful_length, SLOT};
use crate::solve::{solve, subsets};
use crate::told::Told;

#[derive(Clone, Copy, Debug, Default, PartialEq, Eq)]
pub struct Joined {
    pub number: u32,
    pub usable: u32,
    pub need: u32,
    pub set: u32,
    pub trials: u32,
}

/// The polynomials found: who matches them all, and their constants.
struct Agreement {
    set: u32,
    constants: Vec<u32>,
}

pub fn join(told: Told, stamp: u32, length: u32, tray: &[u8], room: &mut [u8]) -> Joined {
    let refused = |number| Joined { number, ..Joined::default() };
    let order = told.order;
    if !told.lawful() {
        return refused(1);
    }
    if !lawful_length(length as usize) {
        return refused(2);
    }
    if stamp == 0 {
        return refused(3);
    }
    if tray.len() != order.tray() || room.len() != length as usize {
        return refused(4);
    }
    let letters = usable(told, stamp, length, tray);
    let m = letters.len() as u32;
    let need = m.saturating_sub(order.f).max(order.fewest());
    let answer = |number, set, trials| Joined { number, usable: m, need, set, trials };
    if m < order.fewest() {
        return answer(6, 0, 0);
    }
    let (trials, found) = hunt(order.t, need, &letters);
    let Some(Agreement { set, constants }) = found else {
        return answer(7, 0, trials);
    };
    // 256 is a value of the field and no byte
    let secret: Result<Vec<u8>, _> = constants.into_iter().map(u8::try_from).collect();
    let Ok(secret) = secret else {
        return answer(8, set, trials);
    };
    room.copy_from_slice(&secret);
    answer(0, set, trials)
}

/// The letters that can be used, in the order of their keepers.
pub fn usable(told: Told, stamp: u32, length: u32, tray: &[u8]) -> Vec<Letter> {
    tray.chunks(SLOT)
        .zip(1..)
        .filter_map(|(slot, keeper)| {
            let wanted = Head { told, keeper, stamp, length };
            Letter::read(slot).ok().filter(|letter| letter.head == wanted)
        })
        .collect()
}

/// How many sets of t+1 letters were tried, and what was found with the last of them. The letters are in
/// the order of their keepers, and so the sets come in dictionary order of rising keeper numbers.
fn hunt(t: u32, need: u32, letters: &[Letter]) -> (u32, Option<Agreement>) {
    let mut trials = 0;
    // most sets fail at the same word, so each is tried first where the last one failed
    let mut first = 0;
    for basis in subsets(letters.len(), t as usize + 1) {
        trials += 1;
        match agreement_with(&basis, need, letters, first) {
            Ok(agreement) => return (trials, Some(agreement)),
            Err(word) => first = word,
        }
    }
    (trials, None)
}

/// What matches the polynomials through these letters, or a word at which it isn't enough.
fn agreement_with(
    basis: &[usize],
    need: u32,
    letters: &[Letter],
    first: usize,
) -> Result<Agreement, usize> {
    let length = letters[0].shares.len();
    let points: Vec<u32> = basis.iter().map(|&i| letters[i].head.keeper).collect();
    let mut matching: Vec<&Letter> = letters.iter().collect();
    let mut constants = vec![0; length];
    for i in (first..length).chain(0..first) {
        let values: Vec<u32> = basis.iter().map(|&b| letters[b].shares[i]).collect();
        let coefficients = solve(&points, &values);
        matching.retain(|letter| value(&coefficients, letter.head.keeper) == letter.shares[i]);
        if matching.len() < need as usize {
            return Err(i);
        }
        constants[i] = coefficients[0];
    }
    let set = matching.iter().map(|letter| 1 << (letter.head.keeper - 1)).sum();
    Ok(Agreement { set, constants })
}
