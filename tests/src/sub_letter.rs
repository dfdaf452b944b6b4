//! The sub-letter: a letter under another mark, in which word 14 says which old keeper cut it for a move.

use crate::block::{words, BLOCK};
use crate::letter::{Fault, Letter, FROM, SUB_MARK};

#[derive(Clone, Debug, PartialEq, Eq)]
pub struct SubLetter {
    pub letter: Letter,
    /// Nobody, where its blocks do not name the same keeper.
    pub from: Option<u32>,
}

impl SubLetter {
    pub fn read(slot: &[u8]) -> Result<SubLetter, Fault> {
        let letter = Letter::read_with(SUB_MARK, slot)?;
        let blocks = slot.chunks(BLOCK).take(letter.head.blocks());
        let named: Vec<u32> = blocks.map(|block| words(block)[FROM]).collect();
        let from = named.iter().all(|&name| name == named[0]).then_some(named[0]);
        Ok(SubLetter { letter, from })
    }
}
