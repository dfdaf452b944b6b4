//! The letter: its head and share words, its one slot, and the reading of any slot. A sub-letter has the same
//! layout, so both are written and read here.

use crate::block::{self, Words, BLOCK, WORDS};
use crate::order::{lawful_length, Order, SLOT};
use crate::told::Told;

/// The marks of a letter and of a sub-letter.
pub const MARK: u32 = 81;
pub const SUB_MARK: u32 = 82;

const EDITION: u32 = 1;

/// The word that is 0 in a letter, and in a sub-letter the keeper that it is from.
pub const FROM: usize = 14;

/// Where the share words of a block begin, and how many there are.
pub const SHARES: usize = 16;
pub const SHARES_IN_BLOCK: usize = 238;

#[derive(Clone, Copy, Debug, PartialEq, Eq)]
pub struct Head {
    pub told: Told,
    pub keeper: u32,
    pub stamp: u32,
    pub length: u32,
}

#[derive(Clone, Debug, PartialEq, Eq)]
pub struct Letter {
    pub head: Head,
    pub shares: Vec<u32>,
}

/// Why a slot is no good letter, and the place of the block that decided it.
#[derive(Clone, Copy, Debug, PartialEq, Eq)]
pub struct Fault {
    pub number: u32,
    pub place: u32,
}

impl Head {
    pub fn blocks(self) -> usize {
        (self.length as usize).div_ceil(SHARES_IN_BLOCK)
    }

    fn write(self, mark: u32, place: u32, words: &mut Words) {
        let Head { told: Told { order, key }, keeper, stamp, length } = self;
        let front = [mark, EDITION, order.t, order.f, order.n, keeper];
        let stamp = stamp.to_be_bytes().map(u32::from);
        let back = [length / 256, length % 256, place, key];
        words[..6].copy_from_slice(&front);
        words[6..10].copy_from_slice(&stamp);
        words[10..14].copy_from_slice(&back);
    }

    /// The head that a block's words say, if they say a lawful one.
    fn said_by(words: &Words) -> Option<Head> {
        let byte = |i: usize| u8::try_from(words[i]).ok();
        let told = Told::new(Order::new(words[2], words[3], words[4]), words[13]);
        let keeper = words[5];
        let stamp = u32::from_be_bytes([byte(6)?, byte(7)?, byte(8)?, byte(9)?]);
        let length = u32::from_be_bytes([0, 0, byte(10)?, byte(11)?]);
        let lawful = told.lawful()
            && told.order.has_keeper(keeper)
            && stamp != 0
            && lawful_length(length as usize);
        lawful.then_some(Head { told, keeper, stamp, length })
    }
}

impl Letter {
    /// The one slot of this letter.
    pub fn slot(&self) -> Vec<u8> {
        self.slot_of(MARK, 0)
    }

    /// The slot of its head and share words with this mark, and with this keeper as the one it is from.
    pub fn slot_of(&self, mark: u32, from: u32) -> Vec<u8> {
        let mut slot = Vec::with_capacity(SLOT);
        for (place, shares) in self.shares.chunks(SHARES_IN_BLOCK).enumerate() {
            let mut words = [0; WORDS];
            self.head.write(mark, place as u32, &mut words);
            words[FROM] = from;
            words[SHARES..SHARES + shares.len()].copy_from_slice(shares);
            block::seal(&mut words);
            slot.extend(block::bytes(&words));
        }
        slot.resize(SLOT, 0);
        slot
    }

    pub fn read(slot: &[u8]) -> Result<Letter, Fault> {
        Letter::read_with(MARK, slot)
    }

    /// Reads what has this mark. Whom a sub-letter is from is not looked at.
    pub fn read_with(mark: u32, slot: &[u8]) -> Result<Letter, Fault> {
        if slot.len() != SLOT {
            return Err(Fault { number: 4, place: 0 });
        }
        let head = read_block(mark, slot, 0, None)?;
        for place in 1..head.blocks() {
            read_block(mark, slot, place, Some(head))?;
        }
        let (letter, rest) = slot.split_at(head.blocks() * BLOCK);
        let mut shares: Vec<u32> = letter
            .chunks(BLOCK)
            .flat_map(|bytes| block::words(bytes)[SHARES..SHARES + SHARES_IN_BLOCK].to_vec())
            .collect();
        let past = shares.split_off(head.length as usize);
        if past.iter().any(|&word| word != 0) || rest.iter().any(|&byte| byte != 0) {
            return Err(Fault { number: 13, place: 0 });
        }
        Ok(Letter { head, shares })
    }
}

/// The head of the block at this place, which must be the first block's where there is one.
fn read_block(mark: u32, slot: &[u8], place: usize, first: Option<Head>) -> Result<Head, Fault> {
    let words = block::words(&slot[place * BLOCK..][..BLOCK]);
    let place = place as u32;
    let fault = |number| Err(Fault { number, place });
    if words.iter().any(|&word| word > 256) {
        return fault(9);
    }
    if !block::checked(&words) {
        return fault(10);
    }
    if words[0] != mark || words[1] != EDITION {
        return fault(11);
    }
    let unused = words[15] == 0 && (words[FROM] == 0 || mark == SUB_MARK);
    let settled = words[12] == place && unused;
    match Head::said_by(&words) {
        Some(head) if settled && first.is_none_or(|first| first == head) => Ok(head),
        _ => fault(12),
    }
}
