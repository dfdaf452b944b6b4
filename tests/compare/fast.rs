//! The best loops held equal to the plain program, so that the race they run is a fair one.

use second::cases::{self, Tray, LENGTHS, NO_KEYS};
use second::damage::{forge_word, lie, set_word, slot};
use second::order::Order;
use second::random::Random;
use second::tally::Tally;
use second::told::Told;
use second::{cut, fast, join};

fn same_cut(told: Told, stamp: u32, secret: &[u8], words: &[u16], tray: &[u8]) -> u32 {
    let (mut plain, mut quick) = (tray.to_vec(), tray.to_vec());
    let number = cut::cut(told, stamp, secret, words, &mut plain);
    assert_eq!(fast::cut(told, stamp, secret, words, &mut quick), number);
    assert!(plain == quick, "{told:?} {} bytes", secret.len());
    number
}

fn same_join(told: Told, stamp: u32, length: u32, tray: &[u8], room: usize) -> u32 {
    let (mut plain, mut quick) = (vec![1; room], vec![1; room]);
    let joined = join::join(told, stamp, length, tray, &mut plain);
    assert_eq!(fast::join(told, stamp, length, tray, &mut quick), joined);
    assert!(plain == quick, "{told:?} {length} bytes");
    joined.number
}

#[test]
fn the_cut_of_every_order_and_length_class() {
    let random = &Random::new(101);
    let mut tally = Tally::default();
    for order in Order::all() {
        for length in LENGTHS {
            let secret = random.bytes(length);
            let words = random.words(length * order.t as usize);
            let tray = random.bytes(order.tray());
            let (told, stamp) = (cases::told_of(order, random), cases::stamp(random));
            tally.add(same_cut(told, stamp, &secret, &words, &tray));
        }
    }
    tally.expect(1600, &[0]);
}

/// Any small order, lawful or not. One in eight has a number of no key.
fn small(random: &Random) -> Told {
    let order = Order::new(random.between(0, 8), random.between(0, 3), random.between(3, 17));
    let key = if random.once_in(8) { *random.choose(&NO_KEYS) } else { cases::key(random) };
    Told::new(order, key)
}

#[test]
fn the_cut_s_refusals() {
    let random = &Random::new(102);
    let mut tally = Tally::default();
    for _ in 0..400 {
        let told = small(random);
        let length = *random.choose(&[0, 1, 3, 952, 953]);
        let mut words = random.words(length * told.order.t as usize + random.below(5) / 4);
        if let Some(word) = words.last_mut().filter(|_| random.once_in(2)) {
            *word = 257;
        }
        let tray = random.bytes(told.order.tray());
        let stamp = random.between(0, 2);
        tally.add(same_cut(told, stamp, &random.bytes(length), &words, &tray));
    }
    tally.expect(400, &[0, 1, 2, 3, 4, 5]);
}

#[test]
fn the_join_with_liars_and_damage() {
    let random = &Random::new(103);
    let mut tally = Tally::default();
    for round in 0..800 {
        let told = cases::told(random);
        let length = if round % 10 == 0 { cases::length(random) } else { 1 + random.below(70) };
        let mut tray = Tray::cut(told, 9, length, random);
        for keeper in 0..random.below(told.order.n as usize / 2 + 1) {
            let slot = slot(&mut tray.bytes, told.order.n - keeper as u32);
            match random.below(5) {
                0 => set_word(slot, 0, random.below(256), random.between(0, 300)),
                1 => lie(slot, length - 1, random.between(0, 256)),
                2 => lie(slot, random.below(length), random.between(0, 256)),
                3 => forge_word(slot, 0, 13, cases::other_key(told.key, random)),
                _ => (0..length.min(5)).for_each(|i| lie(slot, i, random.between(0, 256))),
            }
        }
        tally.add(same_join(told, 9, length as u32, &tray.bytes, length));
    }
    tally.expect(800, &[0, 6, 7]);
}

#[test]
fn the_join_of_few_letters_with_few_words() {
    let random = &Random::new(104);
    let told = Told::new(Order::new(1, 1, 6), 7);
    let tray = Tray::cut(told, 9, 2, random).bytes;
    let mut tally = Tally::default();
    for _ in 0..3000 {
        let mut tray = tray.clone();
        for keeper in 1..=6 {
            let slot = slot(&mut tray, keeper);
            lie(slot, 0, *random.choose(&[keeper - 1, keeper, 1, 256]));
            lie(slot, 1, *random.choose(&[keeper, keeper, 4]));
            if random.once_in(3) {
                slot.fill(0);
            }
        }
        tally.add(same_join(told, 9, 2, &tray, 2));
    }
    tally.expect(3000, &[0, 6, 7, 8]);
}

/// Liars side by side, from each keeper on. Once in two the one before them is absent.
#[test]
fn the_join_s_trials() {
    let random = &Random::new(106);
    let mut tally = Tally::default();
    for order in Order::all() {
        for liars in 0..=order.f + 1 {
            for first in 1..=order.n - liars {
                let told = cases::told_of(order, random);
                let mut tray = Tray::cut(told, 9, 4 + random.below(5), random);
                tray.lie_apart(&(first..first + liars).collect::<Vec<_>>(), random);
                if first > 1 && random.once_in(2) {
                    slot(&mut tray.bytes, first - 1).fill(0);
                }
                tally.add(same_join(told, 9, tray.length(), &tray.bytes, tray.secret.len()));
            }
        }
    }
    tally.expect(4600, &[0, 6, 7]);
}

#[test]
fn the_join_s_refusals() {
    let random = &Random::new(105);
    let mut tally = Tally::default();
    for _ in 0..400 {
        let told = small(random);
        let length = *random.choose(&[0, 1, 3, 952, 953]);
        let tray = random.bytes(told.order.tray() + random.below(3) / 2);
        let room = length as usize + random.below(3) / 2;
        tally.add(same_join(told, random.between(0, 2), length, &tray, room));
    }
    tally.expect(400, &[1, 2, 3, 4, 6]);
}
