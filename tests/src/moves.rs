//! Calls of a move to try: all that is told and lent to each.

use crate::both::Both;
use crate::cases::{self, FAR, NO_KEYS};
use crate::damage::forge_word;
use crate::letter::{Head, FROM, SUB_MARK};
use crate::moving::{CutAgain, Move, Weighed};
use crate::order::{Order, LONGEST, SLOT};
use crate::random::Random;
use crate::told::Told;

/// A stamp and a greater one, which is often the next.
pub fn stamps(random: &Random) -> [u32; 2] {
    let old = cases::stamp(random).min(u32::MAX - 1);
    let next = old + 1;
    [old, *random.choose(&[next, random.between(next, u32::MAX)])]
}

/// In how many things a letter can differ from what is told, the stamp being the last of them.
pub const THINGS: usize = 5;

/// A head that differs from this one in its order, key, keeper, length or stamp alone.
pub fn another(head: Head, thing: usize, random: &Random) -> Head {
    let Head { told: Told { order, key }, keeper, stamp, length } = head;
    match thing {
        0 => {
            let mut orders = Order::all();
            orders.retain(|&other| other != order && other.has_keeper(keeper));
            Head { told: Told::new(*random.choose(&orders), key), ..head }
        }
        1 => Head { told: Told::new(order, cases::other_key(key, random)), ..head },
        2 => Head { keeper: (keeper + random.between(0, order.n - 2)) % order.n + 1, ..head },
        3 => Head { length: length % 951 + 1, ..head },
        _ => Head { stamp: if stamp == u32::MAX { 1 } else { stamp + 1 }, ..head },
    }
}

/// In how many ways the old keepers of a weighing can be the wrong ones.
pub const WRONG_KEEPERS: usize = 7;

/// Makes one of the orders or the key unlawful.
pub fn tell_unlawfully(told: &mut Move, random: &Random) {
    match random.below(3) {
        0 => told.old = cases::unlawful(told.old, random),
        1 => told.new.order = cases::unlawful(told.new.order, random),
        _ => told.new.key = *random.choose(&NO_KEYS),
    }
}

/// A number of no keeper of this order.
pub fn no_keeper(order: Order, random: &Random) -> u32 {
    *random.choose(&[0, order.n + 1, *random.choose(&FAR)])
}

/// What is told and lent to an old keeper's cutting.
#[derive(Clone)]
pub struct Cutting {
    pub told: Move,
    pub keeper: u32,
    pub letter: Vec<u8>,
    pub words: Vec<u16>,
    pub tray: Vec<u8>,
}

impl Cutting {
    /// Of a letter with this head. The tray holds something else before.
    pub fn new(old: Head, new: Order, stamp: u32, random: &Random) -> Cutting {
        let told = Told::new(new, old.told.key);
        let (t, slots) = (new.t.min(8) as usize, new.n.min(17) as usize);
        Cutting {
            told: Move { old: old.told.order, new: told, length: old.length, stamp },
            keeper: old.keeper,
            letter: cases::letter_of(old, random).slot(),
            words: random.words(old.length as usize * t),
            tray: random.bytes(slots * SLOT),
        }
    }

    /// Of a letter of so many bytes, to this order.
    pub fn to(new: Order, length: usize, random: &Random) -> Cutting {
        let [stamp, greater] = stamps(random);
        let old = Head { stamp, length: length as u32, ..cases::head(random) };
        Cutting::new(old, new, greater, random)
    }

    pub fn any(random: &Random) -> Cutting {
        Cutting::to(cases::order(random), 1 + random.below(30), random)
    }

    /// Of a letter that can be spoiled past its end.
    pub fn with_an_end(random: &Random) -> Cutting {
        Cutting::to(cases::order(random), cases::length(random).min(LONGEST - 1), random)
    }

    /// Any block of the letter.
    pub fn place(&self, random: &Random) -> usize {
        random.below(self.told.head(1).blocks())
    }

    /// What both answer. A refusal leaves the tray as it was.
    pub fn ask(&self, both: &mut Both) -> CutAgain {
        let Cutting { told, keeper, letter, words, tray } = self;
        let mut left = tray.clone();
        let cut = both.move_cut(*told, *keeper, letter, words, &mut left);
        assert!(cut.number == 0 || left == *tray, "{told:?}, keeper {keeper}");
        cut
    }
}

/// What is told and lent to a new keeper's weighing.
#[derive(Clone)]
pub struct Weighing {
    pub told: Move,
    /// The old keepers, as they are told.
    pub keepers: Vec<u32>,
    /// The old keepers, as their sub-letters come.
    pub named: Vec<u32>,
    pub keeper: u32,
    pub letters: Vec<u8>,
    pub slot: Vec<u8>,
}

impl Weighing {
    /// Of sub-letters with this head. The slot holds something else before.
    pub fn new(old: Order, head: Head, random: &Random) -> Weighing {
        let Head { told, keeper, stamp, length } = head;
        let mut named = cases::keepers(old, random);
        named.truncate(old.t as usize + 1);
        let sub_letter = |&from: &u32| cases::letter_of(head, random).slot_of(SUB_MARK, from);
        Weighing {
            told: Move { old, new: told, length, stamp },
            keepers: cases::mixed(&named, random),
            letters: named.iter().flat_map(sub_letter).collect(),
            named,
            keeper,
            slot: random.bytes(SLOT),
        }
    }

    /// Of so many bytes, from this order.
    pub fn from(old: Order, length: usize, random: &Random) -> Weighing {
        Weighing::new(old, Head { length: length as u32, ..cases::head(random) }, random)
    }

    pub fn any(random: &Random) -> Weighing {
        Weighing::from(cases::order(random), 1 + random.below(30), random)
    }

    /// Of sub-letters that can be spoiled past their end.
    pub fn with_an_end(random: &Random) -> Weighing {
        Weighing::from(cases::order(random), cases::length(random).min(LONGEST - 1), random)
    }

    /// The head that each sub-letter is to have.
    pub fn head(&self) -> Head {
        self.told.head(self.keeper)
    }

    /// A sub-letter, from 0.
    pub fn letter(&mut self, index: usize) -> &mut [u8] {
        &mut self.letters[index * SLOT..][..SLOT]
    }

    /// Any of the sub-letters.
    pub fn index(&self, random: &Random) -> usize {
        random.below(self.named.len())
    }

    /// Any block of a sub-letter.
    pub fn place(&self, random: &Random) -> usize {
        random.below(self.head().blocks())
    }

    /// Puts another sub-letter there, from the same keeper and with this head.
    pub fn exchange(&mut self, index: usize, head: Head, random: &Random) {
        let slot = cases::letter_of(head, random).slot_of(SUB_MARK, self.named[index]);
        self.letter(index).copy_from_slice(&slot);
    }

    /// Names this keeper in every block of a sub-letter.
    pub fn name(&mut self, index: usize, keeper: u32) {
        for place in 0..self.head().blocks() {
            forge_word(self.letter(index), place, FROM, keeper);
        }
    }

    /// Makes the old keepers the wrong ones, in one of the ways there are.
    pub fn misname(&mut self, way: usize, random: &Random) {
        let stranger = self.stranger(random);
        let two = random.sample(self.named.len(), 2);
        let (one, own, other) = (two[0], self.named[two[0]], self.named[two[1]]);
        let repeated = self.letter(two[1]).to_vec();
        let told = self.keepers.iter().position(|&keeper| keeper == own).expect("it is told");
        let last = self.head().blocks() - 1;
        match way {
            // one told twice, and another not at all
            0 => self.keepers[told] = other,
            // one there twice, and another not at all
            1 => self.letter(one).copy_from_slice(&repeated),
            // one told twice that is there twice
            2 => {
                self.keepers[told] = other;
                self.letter(one).copy_from_slice(&repeated);
            }
            // one there that is not told
            3 => self.name(one, stranger),
            // one told that is not there, where the order has another
            4 if stranger != 0 => self.keepers[told] = stranger,
            // one that changes between blocks, where there are several
            5 if last > 0 => forge_word(self.letter(one), last, FROM, other),
            // one that is no keeper's number
            _ => self.name(one, *random.choose(&[0, self.told.old.n + 1, 255, 256])),
        }
    }

    /// An old keeper of whom there is no sub-letter, or 0 where there is one of each.
    fn stranger(&self, random: &Random) -> u32 {
        let strange = |keeper: &u32| !self.named.contains(keeper);
        cases::keepers(self.told.old, random).into_iter().find(strange).unwrap_or(0)
    }

    /// What both answer. A refusal leaves the slot as it was.
    pub fn ask(&self, both: &mut Both) -> Weighed {
        let Weighing { told, keepers, keeper, letters, slot, .. } = self;
        let mut left = slot.clone();
        let weighed = both.move_weigh(*told, keepers, *keeper, letters, &mut left);
        assert!(weighed.number == 0 || left == *slot, "{told:?}, keepers {keepers:?} to {keeper}");
        weighed
    }
}
