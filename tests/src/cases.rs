//! Orders, heads, letters and trays to try, with the edges of the page more often than chance.

use crate::cut::cut;
use crate::damage::{lie, share, slot};
use crate::field::add;
use crate::letter::{Head, Letter};
use crate::order::{Order, LONGEST, SLOT};
use crate::random::Random;
use crate::told::Told;

/// Around the ends of each block's share words.
pub const LENGTHS: [usize; 10] = [1, 2, 237, 238, 239, 476, 477, 715, 951, 952];

pub const STAMPS: [u32; 8] = [1, 2, 255, 256, 0x0001_0000, 0x00ff_ffff, u32::MAX - 1, u32::MAX];

/// Both ends of the keys, and some between.
pub const KEYS: [u32; 4] = [0, 1, 7, 255];

/// Numbers of no key. The low byte of each is one of the keys above.
pub const NO_KEYS: [u32; 7] = [256, 257, 263, 511, 65_536, 0x8000_0000, u32::MAX];

/// Numbers that fit the type and nothing else.
pub const FAR: [u32; 8] = [17, 255, 256, 65_536, 0x3fff_ffff, 0x4000_0000, 0x8000_0000, u32::MAX];

pub fn order(random: &Random) -> Order {
    *random.choose(&Order::all())
}

/// This order, made unlawful by one of its numbers.
pub fn unlawful(order: Order, random: &Random) -> Order {
    let Order { t, f, .. } = order;
    let far = *random.choose(&FAR);
    *random.choose(&[
        Order { n: t + 4 * f, ..order },
        Order { n: far, ..order },
        Order { n: 0, ..order },
        Order { f: t + 1, ..order },
        Order { f: far, ..order },
        Order { t: 0, ..order },
        Order { t: 8, ..order },
        Order { t: far, ..order },
    ])
}

/// These in an order of their own.
pub fn mixed(keepers: &[u32], random: &Random) -> Vec<u32> {
    let order = random.sample(keepers.len(), keepers.len());
    order.into_iter().map(|index| keepers[index]).collect()
}

/// The keepers of an order, mixed.
pub fn keepers(order: Order, random: &Random) -> Vec<u32> {
    mixed(&(1..=order.n).collect::<Vec<_>>(), random)
}

pub fn key(random: &Random) -> u32 {
    match random.below(3) {
        0 => random.between(0, 255),
        _ => *random.choose(&KEYS),
    }
}

/// Another key than this one.
pub fn other_key(key: u32, random: &Random) -> u32 {
    key ^ *random.choose(&[1, 255, random.between(1, 255)])
}

/// This order, and some key.
pub fn told_of(order: Order, random: &Random) -> Told {
    Told::new(order, key(random))
}

pub fn told(random: &Random) -> Told {
    told_of(order(random), random)
}

/// Of all four numbers of blocks alike.
pub fn length(random: &Random) -> usize {
    match random.below(3) {
        0 => *random.choose(&LENGTHS),
        1 => 1 + random.below(20),
        _ => 1 + random.below(LONGEST),
    }
}

pub fn stamp(random: &Random) -> u32 {
    match random.below(3) {
        0 => *random.choose(&STAMPS),
        _ => random.between(1, u32::MAX),
    }
}

pub fn head(random: &Random) -> Head {
    let told = told(random);
    let keeper = random.between(1, told.order.n);
    Head { told, keeper, stamp: stamp(random), length: length(random) as u32 }
}

pub fn letter_of(head: Head, random: &Random) -> Letter {
    let shares = random.words(head.length as usize).into_iter().map(u32::from).collect();
    Letter { head, shares }
}

pub fn letter(random: &Random) -> Letter {
    letter_of(head(random), random)
}

/// A secret cut, and all that it was cut with.
#[derive(Clone)]
pub struct Tray {
    pub told: Told,
    pub stamp: u32,
    pub secret: Vec<u8>,
    pub bytes: Vec<u8>,
}

impl Tray {
    pub fn cut(told: Told, stamp: u32, length: usize, random: &Random) -> Tray {
        let secret = random.bytes(length);
        let words = random.words(length * told.order.t as usize);
        let mut bytes = vec![0; told.order.tray()];
        assert_eq!(cut(told, stamp, &secret, &words, &mut bytes), 0);
        Tray { told, stamp, secret, bytes }
    }

    pub fn length(&self) -> u32 {
        self.secret.len() as u32
    }

    pub fn letter(&self, keeper: u32) -> &[u8] {
        &self.bytes[(keeper as usize - 1) * SLOT..][..SLOT]
    }

    /// Adds to a keeper's word, and makes the check good. Anything but 0 makes it a lie.
    pub fn add_to(&mut self, keeper: u32, place: usize, more: u32) {
        let slot = slot(&mut self.bytes, keeper);
        let sum = add(share(slot, place), more);
        lie(slot, place, sum);
    }

    /// Makes these keepers lie, no two of them at the same word. So at a word where other polynomials
    /// differ from the cut's they match t letters at most and the one that lies there, which is not
    /// enough where need is above t+1.
    pub fn lie_apart(&mut self, liars: &[u32], random: &Random) {
        let places = random.sample(self.secret.len(), liars.len());
        for (&keeper, place) in liars.iter().zip(places) {
            self.add_to(keeper, place, random.between(1, 256));
        }
    }

    /// The same added to every keeper's word moves the constant alone: here to 256.
    pub fn move_to_256(&mut self, place: usize) {
        let more = 256 - u32::from(self.secret[place]);
        (1..=self.told.order.n).for_each(|keeper| self.add_to(keeper, place, more));
    }
}
