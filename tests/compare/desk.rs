//! `cs_store` and `cs_fetch` beside the second program's desk, in sequences.

use second::cases::{self, FAR, LENGTHS, NO_KEYS, STAMPS};
use second::damage::{forge_word, seal, set_word};
use second::desk::Desk;
use second::letter::{Head, Letter};
use second::order::{Order, SLOT};
use second::peer::Peer;
use second::random::Random;
use second::tally::Tally;
use second::told::Told;

/// The two desks side by side, over one held slot.
struct Desks {
    peer: Peer,
    held: Vec<u8>,
    stored: Tally,
    fetched: Tally,
}

impl Desks {
    /// An empty slot.
    fn start() -> Desks {
        let (stored, fetched) = (Tally::default(), Tally::default());
        Desks { peer: Peer::start(), held: vec![0; SLOT], stored, fetched }
    }

    fn same_store(&mut self, desk: Desk, offered: &[u8]) -> u32 {
        let mut expected = self.held.clone();
        let stored = desk.store(&mut expected, offered);
        assert_eq!(self.peer.store(desk, &mut self.held, offered), stored, "{desk:?}");
        assert!(self.held == expected, "{desk:?}");
        self.stored.add(stored.number);
        stored.number
    }

    fn same_fetch(&mut self, desk: Desk) {
        let number = desk.fetch(&self.held).map_or_else(|number| number, |_| 0);
        assert_eq!(self.peer.fetch(desk, &self.held), number, "{desk:?}");
        self.fetched.add(number);
    }

    fn same(&mut self, desk: Desk, offered: &[u8]) -> u32 {
        let number = self.same_store(desk, offered);
        self.same_fetch(desk);
        number
    }
}

fn any_desk(random: &Random) -> Desk {
    let Head { told, keeper, .. } = cases::head(random);
    Desk { told, keeper }
}

/// A letter for the desk, with few stamps and lengths so that old ones come back.
fn letter_for(desk: Desk, random: &Random) -> Vec<u8> {
    let (stamp, length) = (random.between(1, 12), *random.choose(&[1, 2, 238, 239, 952]));
    let head = Head { told: desk.told, keeper: desk.keeper, stamp, length };
    // a pattern of the head's own, so that the same letter comes again, and others with its stamp
    let pattern = random.between(0, 1);
    let shares = (0..length).map(|i| (i * stamp + pattern) % 257).collect();
    Letter { head, shares }.slot()
}

/// A desk that this one's letters aren't for.
fn another(desk: Desk, random: &Random) -> Desk {
    let Desk { told: Told { order, key }, keeper } = desk;
    match random.below(3) {
        0 => Desk { keeper: keeper % order.n + 1, ..desk },
        1 => Desk { told: Told::new(order, cases::other_key(key, random)), keeper },
        _ => Desk { told: Told::new(Order::new(order.t % 7 + 1, 0, order.n.max(8)), key), keeper },
    }
}

/// A slot that is good for the desk, or for another, or spoiled in some place.
fn any_offer(desk: Desk, random: &Random) -> Vec<u8> {
    let mut slot = letter_for(desk, random);
    let word = if random.once_in(2) { random.below(16) } else { random.below(254) };
    match random.below(8) {
        0 => letter_for(another(desk, random), random),
        1 => {
            set_word(&mut slot, random.below(2), word, random.between(0, 260));
            slot
        }
        2 => {
            forge_word(&mut slot, random.below(2), word, random.between(0, 256));
            slot
        }
        _ => slot,
    }
}

/// Beside the comparison the page's own sentence: the first good letter with the greatest stamp.
#[test]
fn sequences_from_an_empty_slot() {
    let random = &Random::new(61);
    let mut desks = Desks::start();
    for _ in 0..60 {
        let desk = any_desk(random);
        desks.held = vec![0; SLOT];
        let mut best: Option<(u32, Vec<u8>)> = None;
        for _ in 0..50 {
            let offered = any_offer(desk, random);
            desks.same(desk, &offered);
            if let Ok(Letter { head, .. }) = Letter::read(&offered) {
                let own = head.told == desk.told && head.keeper == desk.keeper;
                if own && best.as_ref().is_none_or(|(stamp, _)| head.stamp > *stamp) {
                    best = Some((head.stamp, offered));
                }
            }
            assert!(desks.held == best.as_ref().map_or(vec![0; SLOT], |(_, slot)| slot.clone()));
        }
    }
    desks.stored.expect(3000, &[0, 9, 10, 11, 12, 13, 14, 15, 16]);
    desks.fetched.expect(3000, &[0, 17]);
}

#[test]
fn sequences_with_damage_between_the_calls() {
    let random = &Random::new(62);
    let mut desks = Desks::start();
    for _ in 0..40 {
        let desk = any_desk(random);
        for _ in 0..50 {
            if random.once_in(4) {
                desks.held[random.below(SLOT)] ^= 1 << random.below(8);
            }
            if random.once_in(8) {
                desks.held = any_offer(desk, random);
            }
            desks.same(desk, &any_offer(desk, random));
        }
    }
    desks.stored.expect(2000, &[0, 9, 10, 11, 12, 13, 14, 15, 16]);
    desks.fetched.expect(2000, &[0, 17]);
}

/// What is held was good for the desk told before, and counts as empty for the next.
#[test]
fn sequences_told_different_things() {
    let random = &Random::new(63);
    let mut desks = Desks::start();
    for _ in 0..40 {
        let mut desk = any_desk(random);
        for _ in 0..50 {
            if random.once_in(5) {
                desk = another(desk, random);
            }
            desks.same(desk, &letter_for(desk, random));
            desks.same_fetch(another(desk, random));
        }
    }
    desks.stored.expect(2000, &[0, 14, 15]);
    desks.fetched.expect(4000, &[0, 17]);
}

#[test]
fn letters_of_every_kind_to_an_empty_desk() {
    let random = &Random::new(64);
    let mut desks = Desks::start();
    for length in LENGTHS {
        for stamp in STAMPS {
            let head = Head { stamp, length: length as u32, ..cases::head(random) };
            desks.held = random.bytes(SLOT);
            let slot = cases::letter_of(head, random).slot();
            desks.same(Desk { told: head.told, keeper: head.keeper }, &slot);
        }
    }
    desks.stored.expect(80, &[0]);
    desks.fetched.expect(80, &[0]);
}

/// Each number of the letter's own, with its place, whatever is held.
#[test]
fn faulty_letters() {
    let random = &Random::new(65);
    let mut desks = Desks::start();
    for round in 0..1500 {
        let desk = any_desk(random);
        let Desk { told, keeper } = desk;
        let head = Head { told, keeper, stamp: random.between(1, 3), length: 800 };
        desks.held = cases::letter_of(Head { stamp: 2, ..head }, random).slot();
        let mut offered = cases::letter_of(head, random).slot();
        let place = random.below(4);
        match round % 5 {
            0 => set_word(&mut offered, place, random.below(256), random.between(257, 65535)),
            1 => offered[place * 512 + 509] ^= 3,
            2 => forge_word(&mut offered, place, random.below(2), random.between(2, 80)),
            3 => {
                let word = 2 + random.below(14);
                let value = if word == 13 { 256 } else { random.between(17, 256) };
                forge_word(&mut offered, place, word, value);
            }
            _ => {
                set_word(&mut offered, 3, 253, random.between(1, 256));
                seal(&mut offered, 3);
            }
        }
        desks.same(desk, &offered);
    }
    desks.stored.expect(1500, &[9, 10, 11, 12, 13]);
    desks.fetched.expect(1500, &[0]);
}

#[test]
fn wrong_lengths_of_each_part() {
    let random = &Random::new(66);
    let mut desks = Desks::start();
    for length in [0, 1, 2, 511, 512, 1024, 2046, 2047, 2049, 2050, 4096] {
        for _ in 0..10 {
            let desk = any_desk(random);
            let good = letter_for(desk, random);
            let mut other = good.clone();
            other.resize(length, 0);
            desks.held = good.clone();
            desks.same(desk, &other);
            desks.held = other.clone();
            desks.same(desk, &good);
            desks.same(desk, &other);
        }
    }
    desks.stored.expect(330, &[4]);
    desks.fetched.expect(330, &[0, 4]);
}

#[test]
fn every_small_order_and_keeper() {
    let random = &Random::new(67);
    let mut desks = Desks::start();
    for t in 0..=8 {
        for f in 0..=8 {
            for n in 0..=17 {
                let keeper = *random.choose(&[0, 1, n, n + 1]);
                let desk = Desk { told: cases::told_of(Order::new(t, f, n), random), keeper };
                let told = Told { order: Order::new(1, 0, 9), ..desk.told };
                let mut slot = letter_for(Desk { told, keeper: 3 }, random);
                for (word, value) in (2..).zip([t, f, n, keeper]) {
                    set_word(&mut slot, 0, word, value);
                }
                seal(&mut slot, 0);
                desks.same(desk, &slot);
            }
        }
    }
    desks.stored.expect(1458, &[0, 1, 12]);
    desks.fetched.expect(1458, &[0, 1, 17]);
}

#[test]
fn numbers_far_outside() {
    let random = &Random::new(68);
    let mut desks = Desks::start();
    for far in FAR {
        for _ in 0..10 {
            let desk = any_desk(random);
            let slot = letter_for(desk, random);
            let Desk { told: Told { order, key }, .. } = desk;
            desks.held = slot.clone();
            desks.same(Desk { keeper: far, ..desk }, &slot);
            for told in [
                Told::new(Order { t: far, ..order }, key),
                Told::new(Order { f: far, ..order }, key),
                Told::new(Order { n: far, ..order }, key),
                Told::new(order, *random.choose(&NO_KEYS)),
            ] {
                desks.same(Desk { told, ..desk }, &slot);
            }
        }
    }
    desks.stored.expect(400, &[1]);
    desks.fetched.expect(400, &[1]);
}

/// Each pair of faults that one call can have, so that the desk's own order of judging shows.
#[test]
fn several_refusals_at_once() {
    let random = &Random::new(69);
    let mut desks = Desks::start();
    for faults in (0..64).cycle().take(1280) {
        let has = |fault: u32| faults >> fault & 1 == 1;
        let desk = any_desk(random);
        let mut asked = desk;
        desks.held = letter_for(desk, random);
        let own = if has(3) { another(desk, random) } else { desk };
        let mut offered = if has(4) { letter_for(own, random) } else { desks.held.clone() };
        if has(2) {
            forge_word(&mut offered, 0, 14, 1);
        }
        if has(5) {
            set_word(&mut offered, 0, random.below(256), random.between(0, 300));
        }
        if has(0) && random.once_in(2) {
            asked.keeper = *random.choose(&[0, desk.told.order.n + 1]);
        } else if has(0) {
            asked.told.key = *random.choose(&NO_KEYS);
        }
        if has(1) && random.once_in(2) {
            offered.push(0);
        } else if has(1) {
            desks.held.pop();
        }
        desks.same(asked, &offered);
    }
    desks.stored.expect(1280, &[0, 1, 4, 9, 10, 12, 14, 15, 16]);
    desks.fetched.expect(1280, &[0, 1, 4]);
}
