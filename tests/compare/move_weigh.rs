//! `cs_move_weigh` beside the second program's, byte for byte.

use second::both::Both;
use second::cases::{self, FAR, KEYS, NO_KEYS};
use second::damage::{lie, spoil};
use second::faults::Faults;
use second::letter::Head;
use second::moves::{another, no_keeper, tell_unlawfully, Weighing, THINGS, WRONG_KEEPERS};
use second::moving::Weighed;
use second::order::{Order, LONGEST, SLOT};
use second::peer::Peer;
use second::random::Random;
use second::solve::subsets;
use second::told::Told;

fn both() -> Both {
    Both::over(Peer::start())
}

/// Where no sub-letter is named.
fn refused(number: u32) -> Weighed {
    Weighed { number, letter: 0, place: 0 }
}

fn at_fault(number: u32, letter: usize, place: usize) -> Weighed {
    Weighed { number, letter: letter as u32, place: place as u32 }
}

#[test]
fn from_every_order() {
    let (random, mut both) = (&Random::new(321), both());
    for old in Order::all() {
        for _ in 0..6 {
            let lent = Weighing::from(old, cases::length(random), random);
            assert_eq!(lent.ask(&mut both), refused(0), "{:?}", lent.keepers);
        }
    }
    both.tally.expect(972, &[0]);
}

/// The factors are others for each set.
#[test]
fn every_set_of_old_keepers() {
    let (random, mut both) = (&Random::new(322), both());
    for (t, n) in [(1, 16), (2, 16), (3, 10), (4, 9), (5, 9), (6, 10), (7, 11)] {
        let old = Order::new(t, 0, n);
        for set in subsets(n as usize, t as usize + 1) {
            let mut lent = Weighing::from(old, 1 + random.below(3), random);
            lent.keepers = set.into_iter().map(|index| index as u32 + 1).collect();
            lent.named = cases::mixed(&lent.keepers, random);
            let head = lent.head();
            (0..lent.named.len()).for_each(|index| lent.exchange(index, head, random));
            assert_eq!(lent.ask(&mut both), refused(0), "{:?}", lent.keepers);
        }
    }
    both.tally.expect(1385, &[0]);
}

#[test]
fn to_every_order_and_keeper() {
    let (random, mut both) = (&Random::new(323), both());
    for order in Order::all() {
        for keeper in 1..=order.n {
            let (told, stamp) = (cases::told_of(order, random), cases::stamp(random));
            let head = Head { told, keeper, stamp, length: random.between(1, 300) };
            Weighing::new(cases::order(random), head, random).ask(&mut both);
        }
    }
    both.tally.expect(1800, &[0]);
}

#[test]
fn every_length() {
    let (random, mut both) = (&Random::new(324), both());
    for length in 1..=LONGEST {
        Weighing::from(cases::order(random), length, random).ask(&mut both);
    }
    both.tally.expect(952, &[0]);
}

#[test]
fn share_words_all_alike() {
    let (random, mut both) = (&Random::new(325), both());
    for old in Order::all() {
        for word in [0, 1, 256] {
            let length = 1 + random.below(300);
            let mut lent = Weighing::from(old, length, random);
            for index in 0..lent.named.len() {
                (0..length).for_each(|share| lie(lent.letter(index), share, word));
                lent.ask(&mut both);
            }
        }
    }
    both.tally.expect(2000, &[0]);
}

/// n = t+4f is one keeper too few, in either order.
#[test]
fn small_orders() {
    let (random, mut both) = (&Random::new(326), both());
    for t in 0..=8 {
        for f in 0..=8 {
            for n in 0..=17 {
                let order = Order::new(t, f, n);
                let mut lent = Weighing::any(random);
                lent.told.new.order = order;
                lent.ask(&mut both);
                lent = Weighing::any(random);
                lent.told.old = order;
                lent.ask(&mut both);
            }
        }
    }
    both.tally.expect(2916, &[0, 1, 4, 16]);
}

#[test]
fn orders_keys_and_keepers_outside() {
    let (random, mut both) = (&Random::new(327), both());
    for round in 0..900 {
        let mut lent = Weighing::any(random);
        let index = lent.index(random);
        match round % 3 {
            0 => tell_unlawfully(&mut lent.told, random),
            1 => lent.keeper = no_keeper(lent.told.new.order, random),
            _ => lent.keepers[index] = no_keeper(lent.told.old, random),
        }
        assert_eq!(lent.ask(&mut both), refused(1), "{:?}, {:?}", lent.told, lent.keepers);
    }
    both.tally.expect(900, &[1]);
}

/// The old keepers are judged by the old order, and the new one by the new.
#[test]
fn keepers_of_the_other_order() {
    let (random, mut both) = (&Random::new(328), both());
    let (few, many) = (Order::new(1, 0, 2), Order::new(1, 0, 16));
    for keeper in 1..=16 {
        let head = Head { told: cases::told_of(many, random), keeper, stamp: 3, length: 300 };
        let mut lent = Weighing::new(few, head, random);
        assert_eq!(lent.ask(&mut both), refused(0), "{keeper}");
        lent.keepers = vec![1, keeper];
        let number = [19, 0].get(keeper as usize - 1).copied().unwrap_or(1);
        assert_eq!(lent.ask(&mut both), refused(number), "{keeper}");

        let head = Head { told: cases::told_of(few, random), keeper: 1, ..head };
        let mut lent = Weighing::new(many, head, random);
        lent.keeper = keeper;
        let number = [0, 16].get(keeper as usize - 1).copied().unwrap_or(1);
        assert_eq!(lent.ask(&mut both), refused(number), "{keeper}");
    }
    both.tally.expect(48, &[0, 1, 16, 19]);
}

/// The sub-letters are of the key that the low byte of the number would be.
#[test]
fn keys_at_both_ends_and_outside() {
    let (random, mut both) = (&Random::new(329), both());
    for key in KEYS.into_iter().chain(NO_KEYS) {
        for _ in 0..20 {
            let told = Told::new(cases::order(random), key % 256);
            let head = Head { told, keeper: 1, stamp: cases::stamp(random), length: 3 };
            let mut lent = Weighing::new(cases::order(random), head, random);
            lent.told.new.key = key;
            assert_eq!(lent.ask(&mut both), refused(u32::from(key > 255)), "{key}");
        }
    }
    both.tally.expect(220, &[0, 1]);
}

#[test]
fn lengths_outside_and_a_stamp_of_0() {
    let (random, mut both) = (&Random::new(330), both());
    for length in FAR.into_iter().filter(|&far| far > 952).chain([0, 953]) {
        for _ in 0..20 {
            let mut lent = Weighing::any(random);
            lent.told.stamp = 0;
            assert_eq!(lent.ask(&mut both), refused(3));
            lent.told.length = length;
            assert_eq!(lent.ask(&mut both), refused(2), "{length}");
        }
    }
    both.tally.expect(280, &[2, 3]);
}

/// The keepers told are judged whatever their count, and then the count.
#[test]
fn counts_of_keepers() {
    let (random, mut both) = (&Random::new(331), both());
    for count in 0..=20 {
        for _ in 0..20 {
            let mut lent = Weighing::any(random);
            let told = lent.keepers.len();
            let (old, first) = (lent.told.old, lent.keepers[0]);
            lent.keepers.resize(count, first);
            let number = if count == told { 0 } else { 4 };
            assert_eq!(lent.ask(&mut both), refused(number), "{count} for {told}");
            if let Some(keeper) = lent.keepers.last_mut() {
                *keeper = no_keeper(old, random);
                assert_eq!(lent.ask(&mut both), refused(1), "{count} for {told}");
            }
        }
    }
    both.tally.expect(820, &[0, 1, 4]);
}

#[test]
fn wrong_lengths_of_each_part() {
    let (random, mut both) = (&Random::new(332), both());
    for round in 0..1100 {
        let mut lent = Weighing::any(random);
        let (count, letters) = (lent.keepers.len(), lent.letters.len());
        match round % 11 {
            0 => lent.keepers.truncate(count - 1),
            1 => lent.keepers.push(1),
            2 => lent.keepers.clear(),
            3 => lent.letters.truncate(letters - 1),
            4 => lent.letters.push(0),
            5 => lent.letters.truncate(letters - SLOT),
            6 => lent.letters.resize(letters + SLOT, 0),
            7 => lent.letters.clear(),
            8 => lent.slot.truncate(SLOT - 1),
            9 => lent.slot.push(3),
            _ => lent.slot.clear(),
        }
        assert_eq!(lent.ask(&mut both), refused(4), "round {round}");
    }
    both.tally.expect(1100, &[4]);
}

#[test]
fn keepers_told_and_sub_letters_lent_in_any_order() {
    let (random, mut both) = (&Random::new(340), both());
    for _ in 0..200 {
        let mut lent = Weighing::with_an_end(random);
        let mut first = vec![0; SLOT];
        let Weighing { told, ref keepers, keeper, ref letters, .. } = lent;
        assert_eq!(both.move_weigh(told, keepers, keeper, letters, &mut first), refused(0));
        for _ in 0..5 {
            let order = random.sample(lent.named.len(), lent.named.len());
            let letter = |index| lent.letter(index).to_vec();
            let letters: Vec<u8> = order.into_iter().flat_map(letter).collect();
            let (keepers, mut slot) = (cases::mixed(&lent.keepers, random), random.bytes(SLOT));
            assert_eq!(both.move_weigh(told, &keepers, keeper, &letters, &mut slot), refused(0));
            assert!(slot == first, "{keepers:?}");
        }
    }
    both.tally.expect(1200, &[0]);
}

/// The call's numbers, in the order in which it judges.
const NUMBERS: [u32; 11] = [1, 2, 3, 4, 9, 10, 11, 12, 13, 16, 19];

/// A call with these faults, and what is answered to it.
fn with_faults(faults: Faults, random: &Random) -> (Weighing, Weighed) {
    let mut lent = Weighing::with_an_end(random);
    let [faulty, other] = [lent.index(random), lent.index(random)];
    let place = lent.place(random);
    if faults.has(19) {
        lent.misname(random.below(WRONG_KEEPERS), random);
    }
    if faults.has(16) {
        let head = another(lent.head(), random.below(THINGS), random);
        lent.exchange(other, head, random);
    }
    // one that is spoiled was good before, and may stand where one differed
    if NUMBERS[4..9].iter().any(|&number| faults.has(number)) {
        let head = lent.head();
        lent.exchange(faulty, head, random);
    }
    for number in [13, 12, 11, 10, 9].into_iter().filter(|&number| faults.has(number)) {
        spoil(lent.letter(faulty), number, place, random);
    }
    if faults.has(3) {
        lent.told.stamp = 0;
    }
    if faults.has(2) {
        lent.told.length = *random.choose(&[0, 953]);
    }
    match random.below(3) {
        _ if !faults.has(4) => {}
        0 => lent.letters.push(0),
        1 => lent.keepers.truncate(lent.keepers.len() - 1),
        _ => lent.slot.truncate(SLOT - 1),
    }
    match random.below(3) {
        _ if !faults.has(1) => {}
        0 => tell_unlawfully(&mut lent.told, random),
        1 => lent.keeper = no_keeper(lent.told.new.order, random),
        _ => lent.keepers[0] = no_keeper(lent.told.old, random),
    }
    let expected = match faults.first() {
        number @ 9..=12 => at_fault(number, faulty, place),
        13 => at_fault(13, faulty, 0),
        16 => at_fault(16, other, 0),
        number => refused(number),
    };
    (lent, expected)
}

/// Whatever two things are wrong, that which is judged first is answered.
#[test]
fn every_two_refusals_at_once() {
    let (random, mut both) = (&Random::new(342), both());
    for faults in Faults::pairs(&NUMBERS, 70) {
        let (lent, expected) = with_faults(faults, random);
        assert_eq!(lent.ask(&mut both), expected, "{:?}, keepers {:?}", lent.told, lent.keepers);
    }
    both.tally.expect(4690, &[0, 1, 2, 3, 4, 9, 10, 11, 12, 13, 16, 19]);
    both.tally.each(70);
}

/// All at once, so that the first of many is answered too.
#[test]
fn every_set_of_refusals_at_once() {
    let (random, mut both) = (&Random::new(343), both());
    for faults in Faults::each(&NUMBERS, 1) {
        let (lent, expected) = with_faults(faults, random);
        assert_eq!(lent.ask(&mut both), expected, "{:?}, keepers {:?}", lent.told, lent.keepers);
    }
    both.tally.expect(2048, &[0, 1, 2, 3, 4, 9, 10, 11, 12, 13, 16, 19]);
}
