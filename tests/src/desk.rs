//! The keeper's desk: one held slot.

use crate::letter::{Fault, Letter};
use crate::order::SLOT;
use crate::told::Told;

#[derive(Clone, Copy, Debug, PartialEq, Eq)]
pub struct Desk {
    pub told: Told,
    pub keeper: u32,
}

#[derive(Clone, Copy, Debug, PartialEq, Eq)]
pub struct Stored {
    pub number: u32,
    pub place: u32,
}

impl Desk {
    fn lawful(self) -> bool {
        self.told.lawful() && self.told.order.has_keeper(self.keeper)
    }

    fn is_for(self, letter: &Letter) -> bool {
        letter.head.told == self.told && letter.head.keeper == self.keeper
    }

    /// The letter held; a slot that holds none for this desk counts as empty.
    fn letter_in(self, held: &[u8]) -> Option<Letter> {
        Letter::read(held).ok().filter(|letter| self.is_for(letter))
    }

    pub fn store(self, held: &mut [u8], offered: &[u8]) -> Stored {
        match self.judge(held, offered) {
            Ok(()) => {
                held.copy_from_slice(offered);
                Stored { number: 0, place: 0 }
            }
            Err(Fault { number, place }) => Stored { number, place },
        }
    }

    fn judge(self, held: &[u8], offered: &[u8]) -> Result<(), Fault> {
        let refuse = |number| Err(Fault { number, place: 0 });
        if !self.lawful() {
            return refuse(1);
        }
        if held.len() != SLOT || offered.len() != SLOT {
            return refuse(4);
        }
        let letter = Letter::read(offered)?;
        if !self.is_for(&letter) {
            return refuse(16);
        }
        match self.letter_in(held) {
            Some(old) if letter.head.stamp < old.head.stamp => refuse(14),
            Some(old) if letter.head.stamp == old.head.stamp && offered != held => refuse(15),
            _ => Ok(()),
        }
    }

    /// The held slot, or the number of the refusal.
    pub fn fetch(self, held: &[u8]) -> Result<&[u8], u32> {
        if !self.lawful() {
            Err(1)
        } else if held.len() != SLOT {
            Err(4)
        } else if self.letter_in(held).is_none() {
            Err(17)
        } else {
            Ok(held)
        }
    }
}
