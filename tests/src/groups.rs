//! Trays with letters of several groups. It is known of each group what its join gives, so it is known
//! what the pick must answer, whatever either program says.

use std::collections::BTreeSet;

use crate::block::BLOCK;
use crate::cases::{self, Tray};
use crate::damage::{exchange_slot, forge_word, lie, slot};
use crate::letter::{SHARES, SHARES_IN_BLOCK};
use crate::order::{Order, LONGEST, SLOT};
use crate::pick::Picked;
use crate::random::Random;
use crate::told::Told;

/// What is to stand in a tray of one stamp and length.
#[derive(Debug)]
struct Group {
    stamp: u32,
    length: u32,
    /// So many keepers have a letter whose head says this stamp and length. Not all need be good.
    size: u32,
    /// What the join gives: 0, 7, 8, or 6 where fewer than t+f+1 letters are good.
    number: u32,
}

/// The groups of a tray, from the greatest down.
#[derive(Debug)]
pub struct Groups {
    pub told: Told,
    groups: Vec<Group>,
}

/// What the join can be made to give where so many keepers have a letter.
pub fn numbers(order: Order, size: u32) -> &'static [u32] {
    if size < order.fewest() {
        &[6]
    } else if size < order.differing() {
        &[0, 6, 8]
    } else {
        &[0, 6, 7, 8]
    }
}

/// Sizes of so many groups that each is large enough and may give any number, where there is room for
/// that. What keepers are left go to one of them or to none.
fn sizes(order: Order, count: usize, random: &Random) -> Vec<u32> {
    let room = |size| size * count as u32 <= order.n;
    let least = if room(order.differing()) { order.differing() } else { order.fewest() };
    let mut sizes = vec![least; count];
    for _ in least * count as u32..order.n {
        if let Some(size) = sizes.get_mut(random.below(count + 1)) {
            *size += 1;
        }
    }
    sizes
}

/// Long enough for each liar to have a word of his own: there are at most f+1, which is at most four.
fn length(random: &Random) -> u32 {
    cases::length(random).max(4) as u32
}

/// So many stamps and lengths, falling. Often two share a stamp, and differ by length alone.
fn names(count: usize, random: &Random) -> Vec<(u32, u32)> {
    let stamps: Vec<u32> = (0..count).map(|_| cases::stamp(random)).collect();
    let mut names = BTreeSet::new();
    while names.len() < count {
        names.insert((*random.choose(&stamps), length(random)));
    }
    names.into_iter().rev().collect()
}

impl Groups {
    /// Groups of these sizes whose joins give these numbers, the greatest first.
    pub fn new(told: Told, sizes: &[u32], wanted: &[u32], random: &Random) -> Groups {
        let names = names(sizes.len(), random);
        let group = |i| {
            let ((stamp, length), size, number) = (names[i], sizes[i], wanted[i]);
            assert!(
                numbers(told.order, size).contains(&number),
                "{told:?}: {size} cannot give {number}"
            );
            Group { stamp, length, size, number }
        };
        Groups { told, groups: (0..sizes.len()).map(group).collect() }
    }

    /// Large groups whose joins give these numbers.
    pub fn large(told: Told, numbers: &[u32], random: &Random) -> Groups {
        Groups::new(told, &sizes(told.order, numbers.len(), random), numbers, random)
    }

    /// So many groups of which this one, counted from 0, is the first that joins, or none.
    pub fn first_joins(told: Told, count: usize, first: usize, random: &Random) -> Groups {
        let sizes = sizes(told.order, count, random);
        let number = |(i, &size): (usize, &u32)| match numbers(told.order, size) {
            [_, refusals @ ..] if i < first => *random.choose(refusals),
            _ if i == first => 0,
            any => *random.choose(any),
        };
        let numbers: Vec<u32> = sizes.iter().enumerate().map(number).collect();
        Groups::new(told, &sizes, &numbers, random)
    }

    /// The same under one stamp: they differ by length alone.
    pub fn of_one_stamp(mut self, random: &Random) -> Groups {
        let stamp = cases::stamp(random);
        let mut lengths = BTreeSet::new();
        while lengths.len() < self.groups.len() {
            lengths.insert(length(random));
        }
        for (group, length) in self.groups.iter_mut().zip(lengths.into_iter().rev()) {
            (group.stamp, group.length) = (stamp, length);
        }
        self
    }

    /// What the pick must answer.
    pub fn picked(&self) -> Picked {
        let large: Vec<&Group> = self.groups.iter().filter(|group| group.number != 6).collect();
        match large.iter().find(|group| group.number == 0).or(large.first()) {
            Some(&&Group { stamp, length, number, .. }) => Picked { number, stamp, length },
            None => Picked { number: 6, stamp: 0, length: 0 },
        }
    }

    /// A tray with these groups, whose keepers are mixed.
    pub fn tray(&self, random: &Random) -> Vec<u8> {
        let all = self.told.order.n as usize;
        let mut keepers = random.sample(all, all).into_iter().map(|index| index as u32 + 1);
        let mut tray = vec![0; self.told.order.tray()];
        for group in &self.groups {
            let own: Vec<u32> = keepers.by_ref().take(group.size as usize).collect();
            assert_eq!(own.len(), group.size as usize, "a keeper for each letter");
            let letters = group.letters(self.told, &own, random);
            own.iter().for_each(|&keeper| exchange_slot(&mut tray, &letters, keeper));
        }
        tray
    }
}

impl Group {
    /// A tray that holds the letters of these keepers.
    fn letters(&self, told: Told, keepers: &[u32], random: &Random) -> Vec<u8> {
        let (order, length) = (told.order, self.length as usize);
        let mut cut = Tray::cut(told, self.stamp, length, random);
        if self.number == 8 {
            cut.move_to_256(random.below(length));
        }
        let good = match self.number {
            6 => random.between(0, order.fewest() - 1).min(self.size),
            7 => random.between(order.differing(), self.size),
            _ => random.between(order.fewest(), self.size),
        };
        let borne = order.borne(good);
        let liars = if self.number == 7 { borne + 1 } else { random.between(0, borne) };
        let (good, bad) = keepers.split_at(good as usize);
        cut.lie_apart(&good[..liars as usize], random);
        bad.iter().for_each(|&keeper| spoil(&mut cut, keeper, random));
        cut.bytes
    }
}

/// Spoils a keeper's letter, so that it counts in no group; what its head says of stamp and length stays.
fn spoil(cut: &mut Tray, keeper: u32, random: &Random) {
    let (Told { order, key }, length) = (cut.told, cut.secret.len());
    let slot = slot(&mut cut.bytes, keeper);
    let blocks = length.div_ceil(SHARES_IN_BLOCK);
    let block = random.below(blocks);
    let mut forge_all = |word, value| (0..blocks).for_each(|i| forge_word(slot, i, word, value));
    match random.below(12) {
        // a good letter of another keeper, of another key, or of another order
        0 => forge_all(5, keeper % order.n + 1),
        1 => forge_all(13, cases::other_key(key, random)),
        2 => {
            let mut others = Order::all();
            others.retain(|&other| other != order && other.has_keeper(keeper));
            let other = random.choose(&others);
            (2..).zip([other.t, other.f, other.n]).for_each(|(word, value)| forge_all(word, value));
        }
        3 => slot[block * BLOCK + 2 * SHARES + random.below(BLOCK - 2 * SHARES)] ^= 1,
        4 => forge_word(slot, block, SHARES + random.below(200), 257),
        5 => forge_word(slot, block, random.below(2), 82),
        6 => forge_word(slot, block, *random.choose(&[12, 14, 15]), 5),
        7 => forge_word(slot, block, 13, 256),
        8 if blocks > 1 => forge_word(slot, blocks - 1, 13, cases::other_key(key, random)),
        9 if blocks > 1 => forge_word(slot, blocks - 1, 6 + random.below(6), 256),
        10 if length < LONGEST => lie(slot, length, random.between(1, 256)),
        _ if blocks < 4 => slot[SLOT - 1 - random.below(BLOCK)] = 1,
        _ => slot[block * BLOCK + 508 + random.below(4)] ^= 1,
    }
}
