//! What can be wrong with a sub-letter that is weighed, and with the keeper that it is from.

use second::both::Both;
use second::cases;
use second::damage::{forge_word, spoil};
use second::letter::{Fault, FROM, MARK, SHARES_IN_BLOCK};
use second::moves::{another, Weighing, THINGS, WRONG_KEEPERS};
use second::moving::Weighed;
use second::peer::Peer;
use second::random::Random;

fn both() -> Both {
    Both::over(Peer::start())
}

/// Where no sub-letter is named.
fn refused(number: u32) -> Weighed {
    Weighed { number, letter: 0, place: 0 }
}

fn at_fault(number: u32, letter: usize, place: usize) -> Weighed {
    Weighed { number, letter: letter as u32, place: place as u32 }
}

#[test]
fn faulty_sub_letters() {
    let (random, mut both) = (&Random::new(333), both());
    for round in 0..1500 {
        let mut lent = Weighing::with_an_end(random);
        let (index, place) = (lent.index(random), lent.place(random));
        let Fault { number, place } = spoil(lent.letter(index), 9 + round % 5, place, random);
        let expected = at_fault(number, index, place as usize);
        assert_eq!(lent.ask(&mut both), expected, "round {round}");
    }
    both.tally.expect(1500, &[9, 10, 11, 12, 13]);
}

/// Of two faulty ones the first is named, whatever the numbers. One that differs comes after both.
#[test]
fn two_faulty_sub_letters() {
    let (random, mut both) = (&Random::new(334), both());
    for round in 0..2500 {
        let mut lent = Weighing::with_an_end(random);
        let indices = random.sample(lent.named.len(), 2);
        let (first, later) = (indices[0].min(indices[1]), indices[0].max(indices[1]));
        let places = [lent.place(random), lent.place(random)];
        let number = 9 + round / 5 % 5;
        let fault = if round % 25 == 24 {
            let other = another(lent.head(), random.below(THINGS), random);
            lent.exchange(first, other, random);
            let fault = spoil(lent.letter(later), number, places[1], random);
            at_fault(fault.number, later, fault.place as usize)
        } else {
            spoil(lent.letter(later), number, places[1], random);
            let fault = spoil(lent.letter(first), 9 + round % 5, places[0], random);
            at_fault(fault.number, first, fault.place as usize)
        };
        assert_eq!(lent.ask(&mut both), fault, "round {round}");
    }
    both.tally.expect(2500, &[9, 10, 11, 12, 13]);
}

/// A letter's mark is no sub-letter's, in a later block too, and whatever word 14 is.
#[test]
fn letters_lent_as_sub_letters() {
    let (random, mut both) = (&Random::new(335), both());
    for _ in 0..300 {
        let mut lent = Weighing::with_an_end(random);
        let (index, place) = (lent.index(random), lent.place(random));
        let head = lent.head();
        forge_word(lent.letter(index), place, 0, MARK);
        assert_eq!(lent.ask(&mut both), at_fault(11, index, place));
        forge_word(lent.letter(index), place, FROM, 0);
        assert_eq!(lent.ask(&mut both), at_fault(11, index, place));
        let letter = cases::letter_of(head, random).slot();
        lent.letter(index).copy_from_slice(&letter);
        assert_eq!(lent.ask(&mut both), at_fault(11, index, 0));
    }
    both.tally.expect(900, &[11]);
}

/// A good sub-letter of another order, key, keeper, length or stamp, whoever it is from.
#[test]
fn sub_letters_that_differ() {
    let (random, mut both) = (&Random::new(336), both());
    for thing in (0..THINGS).cycle().take(1500) {
        let mut lent = Weighing::with_an_end(random);
        let indices = random.sample(lent.named.len(), 2);
        let (first, later) = (indices[0].min(indices[1]), indices[0].max(indices[1]));
        let other = another(lent.head(), thing, random);
        lent.exchange(later, other, random);
        assert_eq!(lent.ask(&mut both), at_fault(16, later, 0), "{other:?}");
        let from = random.between(0, 256);
        forge_word(lent.letter(later), 0, FROM, from);
        assert_eq!(lent.ask(&mut both), at_fault(16, later, 0), "{other:?} from {from}");
        let other = another(lent.head(), random.below(THINGS), random);
        lent.exchange(first, other, random);
        assert_eq!(lent.ask(&mut both), at_fault(16, first, 0), "{other:?}");
    }
    both.tally.expect(4500, &[16]);
}

/// 12 looks at no word 14, and 19 at all of them: only the keepers told may stand there, each once.
#[test]
fn word_14_made_each_number() {
    let (random, mut both) = (&Random::new(337), both());
    for length in [1, 300, 700, 951] {
        for made in 0..=257 {
            let mut lent = Weighing::from(cases::order(random), length, random);
            let index = lent.index(random);
            let own = lent.named[index];
            lent.name(index, made);
            let expected = match made {
                257 => at_fault(9, index, 0),
                _ if made == own => refused(0),
                _ => refused(19),
            };
            assert_eq!(lent.ask(&mut both), expected, "{made} for {own} of {:?}", lent.named);
            lent.name(index, own);
            assert_eq!(lent.ask(&mut both), refused(0), "{own}");
        }
    }
    both.tally.expect(2064, &[0, 9, 19]);
}

/// The others of its blocks name the keeper that it is from.
#[test]
fn word_14_made_another_in_one_block() {
    let (random, mut both) = (&Random::new(338), both());
    for length in [239, 476, 477, 714, 715, 952] {
        for _ in 0..40 {
            let mut lent = Weighing::from(cases::order(random), length, random);
            let (index, place) = (lent.index(random), lent.place(random));
            let (own, told) = (lent.named[index], *random.choose(&lent.named));
            for made in [0, 256, own % 16 + 1, told, random.between(0, 256)] {
                forge_word(lent.letter(index), place, FROM, made);
                let number = if made == own { 0 } else { 19 };
                assert_eq!(lent.ask(&mut both), refused(number), "{made} for {own}");
            }
            forge_word(lent.letter(index), place, FROM, 257);
            assert_eq!(lent.ask(&mut both), at_fault(9, index, place));
        }
    }
    both.tally.expect(1440, &[0, 9, 19]);
}

/// Past a sub-letter's end nobody is named: what stands there must be zeros.
#[test]
fn word_14_past_the_end() {
    let (random, mut both) = (&Random::new(339), both());
    for blocks in 1..4 {
        for _ in 0..40 {
            let mut lent = Weighing::from(cases::order(random), blocks * SHARES_IN_BLOCK, random);
            let index = lent.index(random);
            let from = lent.named[index];
            forge_word(lent.letter(index), blocks, FROM, from);
            assert_eq!(lent.ask(&mut both), at_fault(13, index, 0));
        }
    }
    both.tally.expect(120, &[13]);
}

#[test]
fn old_keepers_that_are_the_wrong_ones() {
    let (random, mut both) = (&Random::new(341), both());
    for way in (0..WRONG_KEEPERS).cycle().take(1400) {
        let mut lent = Weighing::with_an_end(random);
        assert_eq!(lent.ask(&mut both), refused(0), "{:?}", lent.keepers);
        lent.misname(way, random);
        assert_eq!(lent.ask(&mut both), refused(19), "way {way}, {:?}", lent.keepers);
    }
    both.tally.expect(2800, &[0, 19]);
}
