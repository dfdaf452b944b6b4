//! Whole moves: t+1 old keepers cut what they hold, and each new keeper weighs what it gets. It is known of
//! each what the new tray must be: the cut of the same secret with the weighted sums of the random words.

use second::both::Both;
use second::cases::{self, Tray};
use second::cut::cut;
use second::damage::{lie, share, slot};
use second::field::{add, multiply, reciprocal, subtract};
use second::join::Joined;
use second::moves::stamps;
use second::moving::{CutAgain, Move, Weighed};
use second::order::{Order, SLOT};
use second::peer::Peer;
use second::random::Random;
use second::told::Told;

fn both() -> Both {
    Both::over(Peer::start())
}

/// By what the value of one of these keepers counts at 0: the product of the others' numbers, each divided by
/// how far it lies above its own.
fn factor(own: u32, keepers: &[u32]) -> u32 {
    let others = keepers.iter().filter(|&&other| other != own);
    let share = |&other: &u32| multiply(other, reciprocal(subtract(other, own)));
    others.map(share).fold(1, multiply)
}

/// A move of one tray.
struct Whole {
    old: Tray,
    told: Move,
    keepers: Vec<u32>,
    /// The random words of each of them.
    words: Vec<Vec<u16>>,
}

impl Whole {
    /// By any of its keepers.
    fn new(old: Tray, new: Order, stamp: u32, random: &Random) -> Whole {
        let Told { order, key } = old.told;
        let told = Move { old: order, new: Told::new(new, key), length: old.length(), stamp };
        let mut keepers = cases::keepers(order, random);
        keepers.truncate(order.t as usize + 1);
        let count = old.secret.len() * new.t as usize;
        let words = keepers.iter().map(|_| random.words(count)).collect();
        Whole { old, told, keepers, words }
    }

    fn any(old: Order, new: Order, length: usize, random: &Random) -> Whole {
        let [stamp, greater] = stamps(random);
        let told = cases::told_of(old, random);
        Whole::new(Tray::cut(told, stamp, length, random), new, greater, random)
    }

    /// The sub-letters of each old keeper, as a tray.
    fn cut(&self, both: &mut Both, random: &Random) -> Vec<Vec<u8>> {
        let mut trays = Vec::new();
        for (&keeper, words) in self.keepers.iter().zip(&self.words) {
            let mut tray = random.bytes(self.told.new.order.tray());
            let cut = both.move_cut(self.told, keeper, self.old.letter(keeper), words, &mut tray);
            assert_eq!(cut, CutAgain { number: 0, place: 0 }, "{:?}, keeper {keeper}", self.told);
            trays.push(tray);
        }
        trays
    }

    /// The tray of what all new keepers weigh. Sub-letters come and keepers are told in any order.
    fn weigh(&self, both: &mut Both, trays: &mut [Vec<u8>], random: &Random) -> Vec<u8> {
        let mut moved = random.bytes(self.told.new.order.tray());
        for (letter, new) in moved.chunks_mut(SLOT).zip(1..) {
            let mut letters = Vec::new();
            for index in random.sample(trays.len(), trays.len()) {
                letters.extend_from_slice(slot(&mut trays[index], new));
            }
            let keepers = cases::mixed(&self.keepers, random);
            let weighed = both.move_weigh(self.told, &keepers, new, &letters, letter);
            assert_eq!(weighed, Weighed { number: 0, letter: 0, place: 0 }, "{:?}", self.told);
        }
        moved
    }

    fn carry_out(&self, both: &mut Both, random: &Random) -> Vec<u8> {
        let mut trays = self.cut(both, random);
        self.weigh(both, &mut trays, random)
    }

    /// The random words with which the secret would be cut to the same tray.
    fn sums(&self) -> Vec<u16> {
        let mut sums = vec![0; self.words[0].len()];
        for (&keeper, words) in self.keepers.iter().zip(&self.words) {
            let factor = factor(keeper, &self.keepers);
            for (sum, &word) in sums.iter_mut().zip(words) {
                *sum = add(*sum, multiply(factor, u32::from(word)));
            }
        }
        sums.into_iter().map(|sum| sum as u16).collect()
    }

    /// The tray that there must be where every old letter is of the one cut.
    fn expected(&self) -> Tray {
        let Move { new, stamp, .. } = self.told;
        let (secret, mut bytes) = (self.old.secret.clone(), vec![0; new.order.tray()]);
        assert_eq!(cut(new, stamp, &secret, &self.sums(), &mut bytes), 0);
        Tray { told: new, stamp, secret, bytes }
    }

    /// The new tray, which is what it must be, and joins.
    fn sound(&self, both: &mut Both, random: &Random) -> Tray {
        let expected = self.expected();
        let moved = self.carry_out(both, random);
        assert!(moved == expected.bytes, "{:?}, keepers {:?}", self.told, self.keepers);
        let (joined, secret) = join(both, &expected, &moved);
        assert_eq!(joined.number, 0, "{:?}", self.told);
        assert_eq!(joined.set, every(self.told.new.order), "{:?}", self.told);
        assert!(secret == self.old.secret, "{:?}", self.told);
        expected
    }
}

/// All keepers as a set.
fn every(order: Order) -> u32 {
    (1 << order.n) - 1
}

/// The join of a tray that was moved, or should have been, like this one.
fn join(both: &mut Both, like: &Tray, tray: &[u8]) -> (Joined, Vec<u8>) {
    let mut room = vec![0xcc; like.secret.len()];
    let joined = both.join(like.told, like.stamp, like.length(), tray, &mut room);
    (joined, room)
}

/// Any order to any, so that t and n grow and shrink, by any t+1 of the old keepers.
#[test]
fn every_order_to_some() {
    let (random, mut both) = (&Random::new(351), both());
    let mut kinds = [0; 6];
    for old in Order::all() {
        for _ in 0..7 {
            let new = cases::order(random);
            let whole = Whole::any(old, new, cases::length(random), random);
            whole.sound(&mut both, random);
            let without_1 = !whole.keepers.contains(&1);
            let of_this = [new.t > old.t, new.t < old.t, new.n > old.n, new.n < old.n];
            let of_this = of_this.into_iter().chain([without_1, new.f != old.f]);
            kinds.iter_mut().zip(of_this).for_each(|(count, is)| *count += u32::from(is));
        }
    }
    println!("t above and below, n above and below, without keeper 1, another f: {kinds:?}");
    assert!(kinds.iter().all(|&count| count >= 200));
    both.tally.expect(17_000, &[0]);
}

#[test]
fn some_to_every_order() {
    let (random, mut both) = (&Random::new(352), both());
    for new in Order::all() {
        let whole = Whole::any(cases::order(random), new, 1 + random.below(20), random);
        whole.sound(&mut both, random);
    }
    both.tally.expect(2400, &[0]);
}

/// The same hosts, under a new stamp: every letter is another.
#[test]
fn to_the_same_order() {
    let (random, mut both) = (&Random::new(353), both());
    for order in Order::all() {
        let whole = Whole::any(order, order, 4 + random.below(20), random);
        let moved = whole.sound(&mut both, random);
        for keeper in 1..=order.n {
            assert!(whole.old.letter(keeper) != moved.letter(keeper), "{order:?}");
        }
    }
    both.tally.expect(2400, &[0]);
}

/// Whatever t+1 of the old keepers do it, the secret is the same. With random words of 0 so is every byte.
#[test]
fn by_other_old_keepers() {
    let (random, mut both) = (&Random::new(354), both());
    for old in Order::all() {
        let mut whole = Whole::any(old, cases::order(random), 1 + random.below(9), random);
        whole.words.iter_mut().for_each(|words| words.fill(0));
        let first = whole.sound(&mut both, random);
        whole.keepers = cases::keepers(old, random);
        whole.keepers.truncate(old.t as usize + 1);
        assert!(whole.sound(&mut both, random).bytes == first.bytes, "{old:?}");
    }
    both.tally.expect(4800, &[0]);
}

/// From each order to the next, and always the same secret.
#[test]
fn moves_after_moves() {
    let (random, mut both) = (&Random::new(355), both());
    for _ in 0..12 {
        let first = cases::told(random);
        let mut tray = Tray::cut(first, random.between(1, 9), cases::length(random), random);
        let secret = tray.secret.clone();
        for _ in 0..10 {
            let stamp = tray.stamp + random.between(1, 9);
            let whole = Whole::new(tray, cases::order(random), stamp, random);
            tray = whole.sound(&mut both, random);
        }
        assert!(tray.secret == secret);
    }
    both.tally.expect(1800, &[0]);
}

/// A constant of 256 is moved like any other, and is no byte afterwards either.
#[test]
fn constants_of_256() {
    let (random, mut both) = (&Random::new(356), both());
    for old in Order::all() {
        let mut whole = Whole::any(old, cases::order(random), 1 + random.below(9), random);
        whole.old.move_to_256(random.below(whole.old.secret.len()));
        let moved = whole.carry_out(&mut both, random);
        let (joined, _) = join(&mut both, &whole.expected(), &moved);
        assert_eq!((joined.number, joined.set), (8, every(whole.told.new.order)), "{old:?}");
    }
    both.tally.expect(2400, &[0, 8]);
}

/// What must be added to the liar's word for this constant to come of it.
fn lie_for(constant: u32, whole: &Whole, liar: u32, place: usize) -> u32 {
    let more = subtract(constant, u32::from(whole.old.secret[place]));
    multiply(more, reciprocal(factor(liar, &whole.keepers)))
}

/// One old keeper alters a word of its letter and makes the check good. All new letters are good, and go
/// together: nothing shows that the secret is another.
#[test]
fn an_old_keeper_that_lies() {
    let (random, mut both) = (&Random::new(357), both());
    for (old, round) in Order::all().into_iter().zip(0..) {
        let mut whole = Whole::any(old, cases::order(random), 1 + random.below(300), random);
        let (expected, liar) = (whole.expected(), *random.choose(&whole.keepers));
        let place = random.below(expected.secret.len());
        let right = expected.secret[place];
        // another byte, or no byte
        let constant = if round % 3 == 0 { 256 } else { u32::from(right ^ 1 << random.below(8)) };
        let more = lie_for(constant, &whole, liar, place);
        whole.old.add_to(liar, place, more);
        let moved = whole.carry_out(&mut both, random);
        let (joined, secret) = join(&mut both, &expected, &moved);
        let order = whole.told.new.order;
        let number = if constant == 256 { 8 } else { 0 };
        assert_eq!(
            (joined.number, joined.usable, joined.set),
            (number, order.n, every(order)),
            "{order:?}"
        );
        assert!(secret != expected.secret, "{order:?}");
        assert!(number == 8 || u32::from(secret[place]) == constant, "{order:?}");
    }
    both.tally.expect(2400, &[0, 8]);
}

/// The old stamp is told to nobody: old letters of two cuts are moved together, and no call refuses.
#[test]
fn old_letters_of_two_cuts() {
    let (random, mut both) = (&Random::new(358), both());
    for old in Order::all() {
        let mut whole = Whole::any(old, cases::order(random), 8 + random.below(20), random);
        let expected = whole.expected();
        let (stamp, length) = (random.between(1, whole.old.stamp), whole.old.secret.len());
        let other = Tray::cut(whole.old.told, stamp, length, random);
        let keeper = *random.choose(&whole.keepers);
        slot(&mut whole.old.bytes, keeper).copy_from_slice(other.letter(keeper));
        let moved = whole.carry_out(&mut both, random);
        let (joined, secret) = join(&mut both, &expected, &moved);
        assert_eq!(joined.set, every(whole.told.new.order), "{old:?}");
        assert!(secret != expected.secret, "{old:?}");
    }
    both.tally.expect(2400, &[0, 8]);
}

/// A lie that reaches no more than f of the new keepers is a lie of theirs, and the join bears it.
#[test]
fn lies_to_a_few_new_keepers() {
    let (random, mut both) = (&Random::new(359), both());
    for new in Order::all().into_iter().filter(|order| order.f > 0) {
        let whole = Whole::any(cases::order(random), new, 1 + random.below(20), random);
        let (expected, mut trays) = (whole.expected(), whole.cut(&mut both, random));
        let deceived = random.sample(new.n as usize, new.f as usize);
        for keeper in deceived.iter().map(|&index| index as u32 + 1) {
            let tray = random.below(trays.len());
            let letter = slot(&mut trays[tray], keeper);
            let place = random.below(expected.secret.len());
            let word = add(share(letter, place), random.between(1, 256));
            lie(letter, place, word);
        }
        let moved = whole.weigh(&mut both, &mut trays, random);
        let (joined, secret) = join(&mut both, &expected, &moved);
        let liars: u32 = deceived.iter().map(|&index| 1 << index).sum();
        assert_eq!((joined.number, joined.set), (0, every(new) - liars), "{new:?}");
        assert!(secret == expected.secret, "{new:?}");
    }
    both.tally.expect(800, &[0]);
}
