//! `cs_cut` beside the second program's cut, byte for byte.

use second::cases::{self, FAR, KEYS, LENGTHS, NO_KEYS, STAMPS};
use second::cut::cut;
use second::order::{Order, SLOT};
use second::peer::Peer;
use second::random::Random;
use second::tally::Tally;
use second::told::Told;

/// All that is lent to one cut.
#[derive(Clone)]
struct Lent {
    told: Told,
    stamp: u32,
    secret: Vec<u8>,
    words: Vec<u16>,
    tray: Vec<u8>,
}

impl Lent {
    /// Of the right sizes where the order is lawful, with a tray that holds something else before.
    fn new(told: Told, stamp: u32, length: usize, random: &Random) -> Lent {
        let t = told.order.t.min(8) as usize;
        let slots = told.order.n.min(17) as usize;
        let (secret, words) = (random.bytes(length), random.words(length * t));
        Lent { told, stamp, secret, words, tray: random.bytes(slots * SLOT) }
    }

    fn any(random: &Random) -> Lent {
        let length = 1 + random.below(30);
        Lent::new(cases::told(random), cases::stamp(random), length, random)
    }
}

/// The two cuts side by side.
struct Cutters {
    peer: Peer,
    tally: Tally,
}

impl Cutters {
    fn start() -> Cutters {
        Cutters { peer: Peer::start(), tally: Tally::default() }
    }

    fn same(&mut self, lent: &Lent) {
        let Lent { told, stamp, secret, words, tray } = lent;
        let (mut expected, mut left) = (tray.clone(), tray.clone());
        let number = cut(*told, *stamp, secret, words, &mut expected);
        let answered = self.peer.cut(*told, *stamp, secret, words, &mut left);
        assert_eq!(answered, number, "{told:?}, stamp {stamp}, {} bytes", secret.len());
        assert!(left == expected, "{told:?}, stamp {stamp}, {} bytes", secret.len());
        self.tally.add(number);
    }
}

#[test]
fn every_order() {
    let (random, mut cutters) = (&Random::new(21), Cutters::start());
    for order in Order::all() {
        for _ in 0..8 {
            let (told, length) = (cases::told_of(order, random), cases::length(random));
            cutters.same(&Lent::new(told, cases::stamp(random), length, random));
        }
    }
    cutters.tally.expect(1296, &[0]);
}

#[test]
fn every_length() {
    let (random, mut cutters) = (&Random::new(22), Cutters::start());
    for length in 1..=952 {
        let told = cases::told(random);
        cutters.same(&Lent::new(told, cases::stamp(random), length, random));
    }
    cutters.tally.expect(952, &[0]);
}

#[test]
fn every_key() {
    let (random, mut cutters) = (&Random::new(31), Cutters::start());
    for key in 0..=255 {
        for length in [1, 238, 239, 952] {
            let told = Told::new(cases::order(random), key);
            cutters.same(&Lent::new(told, cases::stamp(random), length, random));
        }
    }
    cutters.tally.expect(1024, &[0]);
}

/// n = t+4f and t+4f+1, with every length and stamp at which the answer changes.
#[test]
fn the_edges_of_order_length_and_stamp() {
    let (random, mut cutters) = (&Random::new(23), Cutters::start());
    for t in 1..=7 {
        for f in (0..=t).filter(|f| t + 4 * f < 16) {
            for n in [t + 4 * f, t + 4 * f + 1] {
                for length in [0, 1, 238, 239, 952, 953] {
                    for stamp in [0, 1, u32::MAX] {
                        let told = cases::told_of(Order::new(t, f, n), random);
                        cutters.same(&Lent::new(told, stamp, length, random));
                    }
                }
            }
        }
    }
    cutters.tally.expect(700, &[0, 1, 2, 3]);
}

#[test]
fn every_small_order() {
    let (random, mut cutters) = (&Random::new(24), Cutters::start());
    for t in 0..=8 {
        for f in 0..=8 {
            for n in 0..=17 {
                let told = cases::told_of(Order::new(t, f, n), random);
                cutters.same(&Lent::new(told, 1, 1, random));
            }
        }
    }
    cutters.tally.expect(1458, &[0, 1]);
}

#[test]
fn orders_far_outside() {
    let (random, mut cutters) = (&Random::new(25), Cutters::start());
    for round in 0..300 {
        let mut lent = Lent::any(random);
        let far = *random.choose(&FAR);
        let order = &mut lent.told.order;
        match round % 3 {
            0 => order.t = far,
            1 => order.f = far,
            _ => order.n = far,
        }
        if random.once_in(4) {
            order.f = *random.choose(&FAR);
        }
        cutters.same(&lent);
    }
    cutters.tally.expect(300, &[1]);
}

#[test]
fn keys_at_both_ends_and_outside() {
    let (random, mut cutters) = (&Random::new(32), Cutters::start());
    for key in KEYS.into_iter().chain(NO_KEYS) {
        for length in LENGTHS {
            let told = Told::new(cases::order(random), key);
            cutters.same(&Lent::new(told, cases::stamp(random), length, random));
        }
    }
    cutters.tally.expect(110, &[0, 1]);
}

#[test]
fn stamps_at_both_ends() {
    let (random, mut cutters) = (&Random::new(26), Cutters::start());
    for stamp in STAMPS.into_iter().chain([0]) {
        for length in LENGTHS {
            cutters.same(&Lent::new(cases::told(random), stamp, length, random));
        }
    }
    cutters.tally.expect(90, &[0, 3]);
}

/// 256 is a word like any other; 257 is one too many, in the last place as in the first.
#[test]
fn random_words_256_and_257() {
    let (random, mut cutters) = (&Random::new(27), Cutters::start());
    for round in 0..800 {
        let mut lent = Lent::any(random);
        let last = lent.words.len() - 1;
        let at = *random.choose(&[0, last, random.below(last + 1)]);
        lent.words[at] = [256, 257, 258, 512, 65535, 256][round % 6];
        cutters.same(&lent);
    }
    cutters.tally.expect(800, &[0, 5]);
}

#[test]
fn coefficients_all_alike_and_highest_ones_0() {
    let (random, mut cutters) = (&Random::new(28), Cutters::start());
    for order in Order::all() {
        let (told, t) = (cases::told_of(order, random), order.t as usize);
        for word in [0, 1, 256] {
            let mut lent = Lent::new(told, 5, 1 + random.below(300), random);
            lent.words.fill(word);
            cutters.same(&lent);
        }
        let mut lent = Lent::new(told, 5, 1 + random.below(300), random);
        lent.words.iter_mut().skip(t - 1).step_by(t).for_each(|word| *word = 0);
        cutters.same(&lent);
        let byte = *random.choose(&[0, 255]);
        lent.secret.fill(byte);
        cutters.same(&lent);
    }
    cutters.tally.expect(810, &[0]);
}

#[test]
fn wrong_lengths_of_each_part() {
    let (random, mut cutters) = (&Random::new(29), Cutters::start());
    for round in 0..800 {
        let mut lent = Lent::any(random);
        let (words, tray) = (lent.words.len(), lent.tray.len());
        let t = lent.told.order.t as usize;
        match round % 8 {
            0 => lent.words.truncate(words - 1),
            1 => lent.words.push(3),
            2 => lent.words.resize(words + t, 3),
            3 => lent.words.clear(),
            4 => lent.tray.truncate(tray - 1),
            5 => lent.tray.push(3),
            6 => lent.tray.resize(tray - SLOT + random.below(2) * 2 * SLOT, 3),
            _ => lent.tray.clear(),
        }
        cutters.same(&lent);
    }
    cutters.tally.expect(800, &[4]);
}

/// Whatever is wrong at once, the smallest number is given and nothing is changed.
#[test]
fn several_refusals_at_once() {
    let (random, mut cutters) = (&Random::new(30), Cutters::start());
    for faults in (0..32).cycle().take(960) {
        let has = |fault: u32| faults >> fault & 1 == 1;
        let length = if has(1) { *random.choose(&[0, 953, 1000]) } else { 1 + random.below(20) };
        let mut lent = Lent::new(cases::told(random), random.between(1, 9), length, random);
        if has(0) && random.once_in(2) {
            lent.told.order.n = lent.told.order.t + 4 * lent.told.order.f;
        } else if has(0) {
            lent.told.key = *random.choose(&NO_KEYS);
        }
        if has(2) {
            lent.stamp = 0;
        }
        if has(3) && random.once_in(2) {
            lent.tray.push(9);
        } else if has(3) {
            lent.words.push(9);
        }
        if let Some(word) = lent.words.last_mut().filter(|_| has(4)) {
            *word = 257;
        }
        cutters.same(&lent);
    }
    cutters.tally.expect(960, &[0, 1, 2, 3, 4, 5]);
}
