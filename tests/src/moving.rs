//! The move of a key to new keepers: an old keeper cuts the share words of its letter again, and a new keeper
//! weighs what t+1 old ones cut for it.

use crate::cut::shares;
use crate::field::{add, multiply};
use crate::letter::{Fault, Head, Letter, SUB_MARK};
use crate::order::{lawful_length, Order, SLOT};
use crate::solve::factors;
use crate::sub_letter::SubLetter;
use crate::told::Told;

/// What both calls are told.
#[derive(Clone, Copy, Debug)]
pub struct Move {
    pub old: Order,
    /// The new order, and the key, which stays.
    pub new: Told,
    pub length: u32,
    /// That of the new letters.
    pub stamp: u32,
}

#[derive(Clone, Copy, Debug, PartialEq, Eq)]
pub struct CutAgain {
    pub number: u32,
    pub place: u32,
}

#[derive(Clone, Copy, Debug, PartialEq, Eq)]
pub struct Weighed {
    pub number: u32,
    /// Which sub-letter is at fault, from 0.
    pub letter: u32,
    pub place: u32,
}

impl Move {
    /// The head of an old keeper's letter, whose stamp is not told.
    pub fn old_head(self, keeper: u32, stamp: u32) -> Head {
        let told = Told::new(self.old, self.new.key);
        Head { told, keeper, stamp, length: self.length }
    }

    /// The head of what a new keeper gets, letter or sub-letter.
    pub fn head(self, keeper: u32) -> Head {
        Head { told: self.new, keeper, stamp: self.stamp, length: self.length }
    }

    /// 1, 2 and 3, where these keepers of each order are told; else 0.
    fn refusal(self, old: &[u32], new: &[u32]) -> u32 {
        let lawful = self.old.lawful()
            && self.new.lawful()
            && old.iter().all(|&keeper| self.old.has_keeper(keeper))
            && new.iter().all(|&keeper| self.new.order.has_keeper(keeper));
        if !lawful {
            1
        } else if !lawful_length(self.length as usize) {
            2
        } else if self.stamp == 0 {
            3
        } else {
            0
        }
    }

    /// Fills the tray with the sub-letters of an old keeper for the new ones.
    pub fn cut(self, keeper: u32, letter: &[u8], random: &[u16], tray: &mut [u8]) -> CutAgain {
        match self.judge_cut(keeper, letter, random, tray) {
            Ok(words) => {
                for (slot, new) in tray.chunks_mut(SLOT).zip(1..) {
                    let shares = shares(self.new.order.t as usize, &words, random, new);
                    let letter = Letter { head: self.head(new), shares };
                    slot.copy_from_slice(&letter.slot_of(SUB_MARK, keeper));
                }
                CutAgain { number: 0, place: 0 }
            }
            Err(Fault { number, place }) => CutAgain { number, place },
        }
    }

    /// The share words to be cut.
    fn judge_cut(
        self,
        keeper: u32,
        letter: &[u8],
        random: &[u16],
        tray: &[u8],
    ) -> Result<Vec<u32>, Fault> {
        let refuse = |number| Err(Fault { number, place: 0 });
        let order = self.new.order;
        let number = self.refusal(&[keeper], &[]);
        if number != 0 {
            return refuse(number);
        }
        let words = self.length as usize * order.t as usize;
        if letter.len() != SLOT || random.len() != words || tray.len() != order.tray() {
            return refuse(4);
        }
        if random.iter().any(|&word| word > 256) {
            return refuse(5);
        }
        let Letter { head, shares } = Letter::read(letter)?;
        if head != self.old_head(keeper, head.stamp) {
            return refuse(16);
        }
        if self.stamp <= head.stamp {
            return refuse(20);
        }
        Ok(shares)
    }

    /// Fills the slot with the letter of a new keeper, from what these old ones cut for it.
    pub fn weigh(self, keepers: &[u32], keeper: u32, letters: &[u8], slot: &mut [u8]) -> Weighed {
        match self.judge_weigh(keepers, keeper, letters, slot) {
            Ok(cut) => {
                let letter = Letter { head: self.head(keeper), shares: weighed_sums(&cut) };
                slot.copy_from_slice(&letter.slot());
                Weighed { number: 0, letter: 0, place: 0 }
            }
            Err(weighed) => weighed,
        }
    }

    /// The share words of each sub-letter, with the keeper that it is from.
    fn judge_weigh(
        self,
        keepers: &[u32],
        keeper: u32,
        letters: &[u8],
        slot: &[u8],
    ) -> Result<Vec<(u32, Vec<u32>)>, Weighed> {
        let refuse = |number| Err(Weighed { number, letter: 0, place: 0 });
        let number = self.refusal(keepers, &[keeper]);
        if number != 0 {
            return refuse(number);
        }
        let count = self.old.t as usize + 1;
        if keepers.len() != count || letters.len() != count * SLOT || slot.len() != SLOT {
            return refuse(4);
        }
        let mut read = Vec::new();
        for (slot, letter) in letters.chunks(SLOT).zip(0..) {
            let fault = |Fault { number, place }| Weighed { number, letter, place };
            read.push(SubLetter::read(slot).map_err(fault)?);
        }
        let told = self.head(keeper);
        if let Some(other) = read.iter().position(|sub| sub.letter.head != told) {
            return Err(Weighed { number: 16, letter: other as u32, place: 0 });
        }
        let named: Option<Vec<u32>> = read.iter().map(|sub| sub.from).collect();
        match named.filter(|named| each_once(named, keepers)) {
            Some(named) => {
                Ok(named.into_iter().zip(read.into_iter().map(|sub| sub.letter.shares)).collect())
            }
            None => refuse(19),
        }
    }
}

/// Whether the keepers told are all different, and those named in the sub-letters are the same ones.
fn each_once(named: &[u32], told: &[u32]) -> bool {
    let count = |keepers: &[u32], keeper| keepers.iter().filter(|&&other| other == keeper).count();
    told.iter().all(|&keeper| count(told, keeper) == 1 && count(named, keeper) == 1)
}

/// At each place the sum of the words there, each times its keeper's factor.
fn weighed_sums(rows: &[(u32, Vec<u32>)]) -> Vec<u32> {
    let points: Vec<u32> = rows.iter().map(|&(keeper, _)| keeper).collect();
    let mut sums = vec![0; rows[0].1.len()];
    for ((_, row), factor) in rows.iter().zip(factors(&points)) {
        for (sum, &word) in sums.iter_mut().zip(row) {
            *sum = add(*sum, multiply(factor, word));
        }
    }
    sums
}
