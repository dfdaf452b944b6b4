//! `cs_move_cut` beside the second program's, byte for byte.

use second::both::Both;
use second::cases::{self, FAR, KEYS, NO_KEYS};
use second::damage::{forge_word, lie, slot, spoil};
use second::faults::Faults;
use second::letter::{Fault, Head, FROM, MARK, SUB_MARK};
use second::moves::{another, no_keeper, stamps, tell_unlawfully, Cutting, THINGS};
use second::moving::CutAgain;
use second::order::{Order, LONGEST, SLOT};
use second::peer::Peer;
use second::random::Random;
use second::told::Told;

fn both() -> Both {
    Both::over(Peer::start())
}

fn refused(number: u32) -> CutAgain {
    CutAgain { number, place: 0 }
}

#[test]
fn to_every_order() {
    let (random, mut both) = (&Random::new(301), both());
    for new in Order::all() {
        for _ in 0..6 {
            Cutting::to(new, cases::length(random), random).ask(&mut both);
        }
    }
    both.tally.expect(972, &[0]);
}

#[test]
fn from_every_order_and_keeper() {
    let (random, mut both) = (&Random::new(302), both());
    for order in Order::all() {
        for keeper in 1..=order.n {
            let [stamp, greater] = stamps(random);
            let told = cases::told_of(order, random);
            let old = Head { told, keeper, stamp, length: random.between(1, 300) };
            Cutting::new(old, cases::order(random), greater, random).ask(&mut both);
        }
    }
    both.tally.expect(1800, &[0]);
}

#[test]
fn every_length() {
    let (random, mut both) = (&Random::new(303), both());
    for length in 1..=LONGEST {
        Cutting::to(cases::order(random), length, random).ask(&mut both);
    }
    both.tally.expect(952, &[0]);
}

/// A share word may be 256, and so may a random word, or 0 in the highest place.
#[test]
fn words_all_alike_and_highest_ones_0() {
    let (random, mut both) = (&Random::new(304), both());
    for new in Order::all() {
        let t = new.t as usize;
        for word in [0, 1, 256] {
            let mut lent = Cutting::to(new, 1 + random.below(300), random);
            lent.words.fill(word);
            lent.ask(&mut both);
            let length = lent.told.length as usize;
            (0..length).for_each(|share| lie(&mut lent.letter, share, u32::from(word)));
            lent.ask(&mut both);
            lent.words = random.words(length * t);
            lent.words.iter_mut().skip(t - 1).step_by(t).for_each(|word| *word = 0);
            lent.ask(&mut both);
        }
    }
    both.tally.expect(1458, &[0]);
}

/// n = t+4f is one keeper too few, in either order.
#[test]
fn small_orders() {
    let (random, mut both) = (&Random::new(305), both());
    for t in 0..=8 {
        for f in 0..=8 {
            for n in 0..=17 {
                let order = Order::new(t, f, n);
                let mut lent = Cutting::to(order, 1, random);
                let number = u32::from(!order.lawful());
                assert_eq!(lent.ask(&mut both), refused(number), "to {order:?}");
                lent = Cutting::any(random);
                lent.told.old = order;
                lent.ask(&mut both);
            }
        }
    }
    both.tally.expect(2916, &[0, 1, 16]);
}

#[test]
fn orders_keys_and_keepers_outside() {
    let (random, mut both) = (&Random::new(306), both());
    for round in 0..900 {
        let mut lent = Cutting::any(random);
        match round % 2 {
            0 => tell_unlawfully(&mut lent.told, random),
            _ => lent.keeper = no_keeper(lent.told.old, random),
        }
        assert_eq!(lent.ask(&mut both), refused(1), "{:?}, keeper {}", lent.told, lent.keeper);
    }
    both.tally.expect(900, &[1]);
}

/// The letter is of the key that the low byte of the number would be.
#[test]
fn keys_at_both_ends_and_outside() {
    let (random, mut both) = (&Random::new(307), both());
    for key in KEYS.into_iter().chain(NO_KEYS) {
        for _ in 0..20 {
            let [stamp, greater] = stamps(random);
            let told = Told::new(cases::order(random), key % 256);
            let old = Head { told, keeper: 1, stamp, length: 3 };
            let mut lent = Cutting::new(old, cases::order(random), greater, random);
            lent.told.new.key = key;
            assert_eq!(lent.ask(&mut both), refused(u32::from(key > 255)), "{key}");
        }
    }
    both.tally.expect(220, &[0, 1]);
}

#[test]
fn lengths_outside() {
    let (random, mut both) = (&Random::new(308), both());
    for length in FAR.into_iter().filter(|&far| far > 952).chain([0, 953]) {
        for _ in 0..20 {
            let mut lent = Cutting::any(random);
            lent.told.length = length;
            assert_eq!(lent.ask(&mut both), refused(2), "{length}");
        }
    }
    both.tally.expect(140, &[2]);
}

#[test]
fn wrong_lengths_of_each_part() {
    let (random, mut both) = (&Random::new(309), both());
    for round in 0..1200 {
        let mut lent = Cutting::any(random);
        let (words, tray) = (lent.words.len(), lent.tray.len());
        let t = lent.told.new.order.t as usize;
        match round % 12 {
            0 => lent.letter.truncate(SLOT - 1),
            1 => lent.letter.push(0),
            2 => lent.letter.resize(2 * SLOT, 0),
            3 => lent.letter.clear(),
            4 => lent.words.truncate(words - 1),
            5 => lent.words.push(3),
            6 => lent.words.resize(words + t, 3),
            7 => lent.words.clear(),
            8 => lent.tray.truncate(tray - 1),
            9 => lent.tray.push(3),
            10 => lent.tray.resize(tray - SLOT + random.below(2) * 2 * SLOT, 3),
            _ => lent.tray.clear(),
        }
        assert_eq!(lent.ask(&mut both), refused(4), "round {round}");
    }
    both.tally.expect(1200, &[4]);
}

/// The words and the tray are counted by the new order, and never by the old one.
#[test]
fn parts_of_the_old_order_s_sizes() {
    let (random, mut both) = (&Random::new(310), both());
    for _ in 0..600 {
        let mut lent = Cutting::any(random);
        let (old, new) = (lent.told.old, lent.told.new.order);
        let words = random.words((lent.told.length * old.t) as usize);
        let number = if random.once_in(2) {
            lent.words = words;
            if old.t == new.t {
                0
            } else {
                4
            }
        } else {
            lent.tray.resize(old.tray(), 9);
            if old.n == new.n {
                0
            } else {
                4
            }
        };
        assert_eq!(lent.ask(&mut both), refused(number), "{:?}", lent.told);
    }
    both.tally.expect(600, &[0, 4]);
}

/// 257 is one too many, in the last place as in the first.
#[test]
fn random_words_256_and_257() {
    let (random, mut both) = (&Random::new(311), both());
    for round in 0..800 {
        let mut lent = Cutting::any(random);
        let last = lent.words.len() - 1;
        let at = *random.choose(&[0, last, random.below(last + 1)]);
        lent.words[at] = [256, 257, 258, 512, 65_535, 256][round % 6];
        let number = if lent.words[at] > 256 { 5 } else { 0 };
        assert_eq!(lent.ask(&mut both), refused(number), "word {at}");
    }
    both.tally.expect(800, &[0, 5]);
}

#[test]
fn faulty_letters() {
    let (random, mut both) = (&Random::new(312), both());
    for round in 0..1500 {
        let mut lent = Cutting::with_an_end(random);
        let place = lent.place(random);
        let Fault { number, place } = spoil(&mut lent.letter, 9 + round % 5, place, random);
        assert_eq!(lent.ask(&mut both), CutAgain { number, place }, "round {round}");
    }
    both.tally.expect(1500, &[9, 10, 11, 12, 13]);
}

/// The mark of a sub-letter is no letter's, in a later block too. In an old letter word 14 is 0.
#[test]
fn sub_letters_lent_as_letters() {
    let (random, mut both) = (&Random::new(313), both());
    for _ in 0..200 {
        let mut lent = Cutting::with_an_end(random);
        let good = lent.letter.clone();
        let place = lent.place(random);
        let at = place as u32;
        forge_word(&mut lent.letter, place, 0, SUB_MARK);
        assert_eq!(lent.ask(&mut both), CutAgain { number: 11, place: at });
        lent.letter.clone_from(&good);
        forge_word(&mut lent.letter, place, FROM, lent.keeper);
        assert_eq!(lent.ask(&mut both), CutAgain { number: 12, place: at });
        forge_word(&mut lent.letter, place, 0, SUB_MARK);
        assert_eq!(lent.ask(&mut both), CutAgain { number: 11, place: at });
    }
    both.tally.expect(600, &[11, 12]);
}

/// What was cut for a move is read as no letter. With a letter's mark and word 14 it is one.
#[test]
fn sub_letters_read() {
    let (random, mut both) = (&Random::new(314), both());
    for _ in 0..60 {
        let mut lent = Cutting::with_an_end(random);
        let Cutting { told, keeper, ref letter, ref words, ref mut tray } = lent;
        assert_eq!(both.move_cut(told, keeper, letter, words, tray), refused(0));
        for new in 1..=told.new.order.n {
            let (head, slot) = (told.head(new), slot(tray, new));
            assert_eq!(both.read(slot), Err(Fault { number: 11, place: 0 }));
            (0..head.blocks()).for_each(|place| forge_word(slot, place, 0, MARK));
            assert_eq!(both.read(slot), Err(Fault { number: 12, place: 0 }));
            (0..head.blocks()).for_each(|place| forge_word(slot, place, FROM, 0));
            assert_eq!(both.read(slot), Ok(head));
        }
    }
    both.tally.expect(1500, &[0, 11, 12]);
}

/// A good letter that differs from what was told in one thing. Its stamp is not told.
#[test]
fn letters_that_differ() {
    let (random, mut both) = (&Random::new(315), both());
    for thing in (0..THINGS).cycle().take(1500) {
        let mut lent = Cutting::with_an_end(random);
        let head = lent.told.old_head(lent.keeper, random.between(1, lent.told.stamp - 1));
        // of the stamps any will do that is less than the new one
        let other = if thing == THINGS - 1 { head } else { another(head, thing, random) };
        lent.letter = cases::letter_of(other, random).slot();
        let number = if other == head { 0 } else { 16 };
        assert_eq!(lent.ask(&mut both), refused(number), "{head:?}, {other:?}");
    }
    both.tally.expect(1500, &[0, 16]);
}

#[test]
fn stamps_around_the_old_one() {
    let (random, mut both) = (&Random::new(316), both());
    for _ in 0..300 {
        let [old, _] = stamps(random);
        let head = Head { stamp: old, length: random.between(1, 9), ..cases::head(random) };
        let (below, above) = (random.between(0, old), random.between(old + 1, u32::MAX));
        for stamp in [0, 1, old - 1, old, old + 1, below, above, u32::MAX] {
            let lent = Cutting::new(head, cases::order(random), stamp, random);
            let number = if stamp > old { 0 } else { 20 };
            let number = if stamp == 0 { 3 } else { number };
            assert_eq!(lent.ask(&mut both), refused(number), "{stamp} after {old}");
        }
    }
    both.tally.expect(2400, &[0, 3, 20]);
}

/// The last stamp of all has none above it.
#[test]
fn nothing_moves_from_the_last_stamp() {
    let (random, mut both) = (&Random::new(317), both());
    for _ in 0..100 {
        let head = Head { stamp: u32::MAX, length: 3, ..cases::head(random) };
        let stamp = *random.choose(&[1, u32::MAX - 1, u32::MAX]);
        let lent = Cutting::new(head, cases::order(random), stamp, random);
        assert_eq!(lent.ask(&mut both), refused(20), "{stamp}");
    }
    both.tally.expect(100, &[20]);
}

/// The call's numbers, in the order in which it judges.
const NUMBERS: [u32; 12] = [1, 2, 3, 4, 5, 9, 10, 11, 12, 13, 16, 20];

/// A call with these faults, and what is answered to it.
fn with_faults(faults: Faults, random: &Random) -> (Cutting, CutAgain) {
    let mut lent = Cutting::with_an_end(random);
    let mut own = lent.told.old_head(lent.keeper, random.between(1, lent.told.stamp - 1));
    if faults.has(16) {
        own = another(own, random.below(THINGS - 1), random);
    }
    lent.letter = cases::letter_of(own, random).slot();
    let place = random.below(own.blocks());
    for number in [13, 12, 11, 10, 9].into_iter().filter(|&number| faults.has(number)) {
        spoil(&mut lent.letter, number, place, random);
    }
    if faults.has(20) {
        lent.told.stamp = random.between(1, own.stamp);
    }
    if faults.has(3) {
        lent.told.stamp = 0;
    }
    if faults.has(2) {
        lent.told.length = *random.choose(&[0, 953]);
        lent.words.resize((lent.told.length * lent.told.new.order.t) as usize, 3);
    }
    if let Some(word) = lent.words.last_mut().filter(|_| faults.has(5)) {
        *word = 257;
    }
    match random.below(3) {
        _ if !faults.has(4) => {}
        0 => lent.letter.push(0),
        1 => lent.words.push(3),
        _ => lent.tray.truncate(lent.tray.len() - 1),
    }
    match random.below(2) {
        _ if !faults.has(1) => {}
        0 => tell_unlawfully(&mut lent.told, random),
        _ => lent.keeper = no_keeper(lent.told.old, random),
    }
    let number = faults.first();
    let place = if (9..=12).contains(&number) { place as u32 } else { 0 };
    (lent, CutAgain { number, place })
}

/// Whatever two things are wrong, that which is judged first is answered.
#[test]
fn every_two_refusals_at_once() {
    let (random, mut both) = (&Random::new(318), both());
    for faults in Faults::pairs(&NUMBERS, 60) {
        let (lent, expected) = with_faults(faults, random);
        assert_eq!(lent.ask(&mut both), expected, "{:?}, keeper {}", lent.told, lent.keeper);
    }
    both.tally.expect(4740, &[0, 1, 2, 3, 4, 5, 9, 10, 11, 12, 13, 16, 20]);
    both.tally.each(60);
}

/// All at once, so that the first of many is answered too.
#[test]
fn every_set_of_refusals_at_once() {
    let (random, mut both) = (&Random::new(319), both());
    for faults in Faults::each(&NUMBERS, 1) {
        let (lent, expected) = with_faults(faults, random);
        assert_eq!(lent.ask(&mut both), expected, "{:?}, keeper {}", lent.told, lent.keeper);
    }
    both.tally.expect(4096, &[0, 1, 2, 3, 4, 5, 9, 10, 11, 12, 13, 16, 20]);
}
