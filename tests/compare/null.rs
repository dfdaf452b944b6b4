//! NULL where a part is empty: each call answers as the second program does, which knows no pointers.

use second::both::Both;
use second::cases::{self, Tray, NO_KEYS};
use second::compare::{compare, Difference};
use second::cut::cut;
use second::desk::Desk;
use second::join::join;
use second::moves::{tell_unlawfully, Cutting, Weighing};
use second::moving::Move;
use second::order::{Order, SLOT};
use second::peer::Peer;
use second::pick::pick;
use second::random::Random;
use second::tally::Tally;
use second::told::Told;

const STAMP: u32 = 7;
const LENGTH: usize = 3;

/// The part, or nothing where part k is among the empty ones.
fn lent<T>(part: &[T], empty: u32, k: u32) -> &[T] {
    match empty >> k & 1 {
        1 => &[],
        _ => part,
    }
}

/// Each lawful order's tray, and what to tell with it: its own order and key, an order with a keeper too few,
/// one without keepers, whose tray is empty, and a number of no key.
fn trays(random: &Random) -> Vec<(Told, Tray)> {
    let mut trays = Vec::new();
    for order in Order::all() {
        let told = cases::told_of(order, random);
        let tray = Tray::cut(told, STAMP, LENGTH, random);
        for n in [order.n, order.t + 4 * order.f, 0] {
            trays.push((Told { order: Order { n, ..order }, ..told }, tray.clone()));
        }
        trays.push((Told { key: *random.choose(&NO_KEYS), ..told }, tray));
    }
    trays
}

#[test]
fn the_slot_of_a_read() {
    let mut peer = Peer::with_null();
    assert_eq!(peer.read(&[]), [4, 0, 0, 0, 0, 0, 0, 0, 0]);
}

#[test]
fn each_part_of_a_cut() {
    let (random, mut peer, mut tally) = (&Random::new(121), Peer::with_null(), Tally::default());
    for (told, tray) in trays(random) {
        let words = random.words(LENGTH * told.order.t as usize);
        for (empty, stamp) in (0..8).flat_map(|empty| [(empty, 0), (empty, STAMP)]) {
            let secret = lent(&tray.secret, empty, 0);
            let words = lent(&words, empty, 1);
            let mut expected = lent(&tray.bytes, empty, 2).to_vec();
            let mut left = expected.clone();
            let number = cut(told, stamp, secret, words, &mut expected);
            let answered = peer.cut(told, stamp, secret, words, &mut left);
            assert_eq!(answered, number, "{told:?}, stamp {stamp}, empty {empty:b}");
            assert!(left == expected, "{told:?}, stamp {stamp}, empty {empty:b}");
            tally.add(number);
        }
    }
    tally.expect(10_368, &[0, 1, 2, 3, 4]);
}

/// The length told is now and then the empty room's own.
#[test]
fn each_part_of_a_join() {
    let (random, mut peer, mut tally) = (&Random::new(122), Peer::with_null(), Tally::default());
    for (told, tray) in trays(random) {
        for (empty, stamp) in (0..4).flat_map(|empty| [(empty, 0), (empty, STAMP)]) {
            let length = *random.choose(&[0, LENGTH as u32, LENGTH as u32, 953]);
            let bytes = lent(&tray.bytes, empty, 0);
            let mut expected = lent(&tray.secret, empty, 1).to_vec();
            expected.fill(0xcc);
            let mut left = expected.clone();
            let joined = join(told, stamp, length, bytes, &mut expected);
            let answered = peer.join(told, stamp, length, bytes, &mut left);
            assert_eq!(answered, joined, "{told:?}, stamp {stamp}, {length}, empty {empty:b}");
            assert!(left == expected, "{told:?}, stamp {stamp}, {length}, empty {empty:b}");
            tally.add(joined.number);
        }
    }
    tally.expect(5184, &[0, 1, 2, 3, 4]);
}

#[test]
fn each_part_at_the_desk() {
    let (random, mut peer) = (&Random::new(123), Peer::with_null());
    let (mut stored, mut fetched) = (Tally::default(), Tally::default());
    for (told, tray) in trays(random) {
        for (empty, keeper) in (0..4).flat_map(|empty| [(empty, 0), (empty, 1)]) {
            let desk = Desk { told, keeper };
            let mut expected = lent(&vec![0; SLOT], empty, 0).to_vec();
            let mut left = expected.clone();
            let letter = lent(&tray.bytes[..SLOT], empty, 1);
            let answer = desk.store(&mut expected, letter);
            assert_eq!(peer.store(desk, &mut left, letter), answer, "{desk:?}, empty {empty:b}");
            assert!(left == expected, "{desk:?}, empty {empty:b}");
            stored.add(answer.number);
            let number = desk.fetch(&left).err().unwrap_or(0);
            assert_eq!(peer.fetch(desk, &left), number, "{desk:?}, empty {empty:b}");
            fetched.add(number);
        }
    }
    stored.expect(5184, &[0, 1, 4]);
    fetched.expect(5184, &[0, 1, 4, 17]);
}

#[test]
fn the_tray_of_a_pick() {
    let (random, mut peer, mut tally) = (&Random::new(124), Peer::with_null(), Tally::default());
    for (told, tray) in trays(random) {
        for empty in 0..2 {
            let bytes = lent(&tray.bytes, empty, 0);
            let picked = pick(told, bytes);
            assert_eq!(peer.pick(told, bytes), picked, "{told:?}, empty {empty}");
            tally.add(picked.number);
        }
    }
    tally.expect(1296, &[0, 1, 4]);
}

/// The trays are the same, or differ in one word of each slot. A comparison is told no key.
#[test]
fn each_part_of_a_comparison() {
    let (random, mut peer, mut tally) = (&Random::new(125), Peer::with_null(), Tally::default());
    let place = Difference { slot: 9, block: 8, word: 7, first: 6, second: 5 };
    for (Told { order, .. }, tray) in trays(random) {
        let mut other = tray.bytes.clone();
        other.iter_mut().step_by(SLOT).for_each(|byte| *byte ^= 1);
        for (empty, second) in (0..8).flat_map(|empty| [(empty, &tray.bytes), (empty, &other)]) {
            let (first, second) = (lent(&tray.bytes, empty, 0), lent(second, empty, 1));
            let mut expected = lent(&[place; 17], empty, 2).to_vec();
            let mut left = expected.clone();
            let compared = compare(order, first, second, &mut expected);
            let answered = peer.compare(order, first, second, &mut left);
            assert_eq!(answered, compared, "{order:?}, empty {empty:b}");
            assert!(left == expected, "{order:?}, empty {empty:b}");
            tally.add(compared.number);
        }
    }
    tally.expect(10_368, &[0, 1, 4, 18]);
}

/// What to tell: what fits, an order or a key that is none, no length, and no stamp.
fn tellings(told: Move, random: &Random) -> [Move; 4] {
    let mut unlawful = told;
    tell_unlawfully(&mut unlawful, random);
    [told, unlawful, Move { length: 0, ..told }, Move { stamp: 0, ..told }]
}

#[test]
fn each_part_of_a_cutting() {
    let (random, mut both) = (&Random::new(126), Both::over(Peer::with_null()));
    for new in Order::all() {
        let whole = Cutting::to(new, LENGTH, random);
        for told in tellings(whole.told, random) {
            for empty in 0..8 {
                let letter = lent(&whole.letter, empty, 0).to_vec();
                let words = lent(&whole.words, empty, 1).to_vec();
                let tray = lent(&whole.tray, empty, 2).to_vec();
                Cutting { told, letter, words, tray, ..whole }.ask(&mut both);
            }
        }
    }
    both.tally.expect(5184, &[0, 1, 2, 3, 4]);
}

#[test]
fn each_part_of_a_weighing() {
    let (random, mut both) = (&Random::new(127), Both::over(Peer::with_null()));
    for old in Order::all() {
        let whole = Weighing::from(old, LENGTH, random);
        for told in tellings(whole.told, random) {
            for empty in 0..8 {
                let keepers = lent(&whole.keepers, empty, 0).to_vec();
                let letters = lent(&whole.letters, empty, 1).to_vec();
                let slot = lent(&whole.slot, empty, 2).to_vec();
                Weighing { told, keepers, letters, slot, ..whole.clone() }.ask(&mut both);
            }
        }
    }
    both.tally.expect(5184, &[0, 1, 2, 3, 4]);
}
