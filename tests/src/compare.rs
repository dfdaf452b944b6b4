//! The comparison of two trays: the places where they differ, whatever they hold.

use crate::block::{self, BLOCK, WORDS};
use crate::order::{Order, SLOT};

/// A place, counted as the page counts, and the words that the two trays have there.
#[derive(Clone, Copy, Debug, PartialEq, Eq)]
pub struct Difference {
    pub slot: u16,
    pub block: u16,
    pub word: u16,
    pub first: u16,
    pub second: u16,
}

#[derive(Clone, Copy, Debug, PartialEq, Eq)]
pub struct Compared {
    pub number: u32,
    pub count: u32,
}

pub fn compare(order: Order, first: &[u8], second: &[u8], list: &mut [Difference]) -> Compared {
    if !order.lawful() {
        return Compared { number: 1, count: 0 };
    }
    if first.len() != order.tray() || second.len() != order.tray() {
        return Compared { number: 4, count: 0 };
    }
    let found = differences(order, first, second);
    let count = found.len() as u32;
    if list.len() < found.len() {
        return Compared { number: 18, count };
    }
    list[..found.len()].copy_from_slice(&found);
    Compared { number: 0, count }
}

/// All of them, in rising order.
fn differences(order: Order, first: &[u8], second: &[u8]) -> Vec<Difference> {
    let mut found = Vec::new();
    for slot in 1..=order.n as usize {
        for block in 0..SLOT / BLOCK {
            let at = (slot - 1) * SLOT + block * BLOCK;
            let [first, second] = [first, second].map(|tray| block::words(&tray[at..][..BLOCK]));
            for word in (0..WORDS).filter(|&word| first[word] != second[word]) {
                found.push(Difference {
                    slot: slot as u16,
                    block: block as u16,
                    word: word as u16,
                    first: first[word] as u16,
                    second: second[word] as u16,
                });
            }
        }
    }
    found
}
