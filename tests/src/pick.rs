//! The pick: which stamp and length of a tray to join.

use std::collections::BTreeMap;

use crate::join::join;
use crate::letter::Letter;
use crate::order::SLOT;
use crate::told::Told;

#[derive(Clone, Copy, Debug, Default, PartialEq, Eq)]
pub struct Picked {
    pub number: u32,
    pub stamp: u32,
    pub length: u32,
}

pub fn pick(told: Told, tray: &[u8]) -> Picked {
    let refused = |number| Picked { number, ..Picked::default() };
    if !told.lawful() {
        return refused(1);
    }
    if tray.len() != told.order.tray() {
        return refused(4);
    }
    let mut joined = Vec::new();
    for (stamp, length) in large_groups(told, tray) {
        let number = join(told, stamp, length, tray, &mut vec![0; length as usize]).number;
        joined.push(Picked { number, stamp, length });
    }
    let done = joined.iter().find(|picked| picked.number == 0);
    // where none joins it is the greatest group's own number
    done.or(joined.first()).copied().unwrap_or(refused(6))
}

/// Stamp and length of each group of at least t+f+1 letters, the greatest first.
fn large_groups(told: Told, tray: &[u8]) -> Vec<(u32, u32)> {
    let mut groups: BTreeMap<(u32, u32), u32> = BTreeMap::new();
    for (slot, keeper) in tray.chunks(SLOT).zip(1..) {
        match Letter::read(slot) {
            Ok(Letter { head, .. }) if head.told == told && head.keeper == keeper => {
                *groups.entry((head.stamp, head.length)).or_default() += 1;
            }
            _ => {}
        }
    }
    groups.retain(|_, &mut size| size >= told.order.fewest());
    groups.into_keys().rev().collect()
}
