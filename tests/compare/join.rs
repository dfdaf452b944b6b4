//! `cs_join` beside the second program's join, which tries every set of t+1 letters.

use second::cases::{self, Tray, FAR, NO_KEYS};
use second::damage::{exchange_slot, forge_word, lie, set_word, slot};
use second::join::join;
use second::order::{Order, SLOT};
use second::peer::Peer;
use second::random::Random;
use second::tally::Tally;
use second::told::Told;

/// The two joins side by side.
struct Joiners {
    peer: Peer,
    tally: Tally,
}

impl Joiners {
    fn start() -> Joiners {
        Joiners { peer: Peer::start(), tally: Tally::default() }
    }

    /// The number, and what is then in a room of this size.
    fn same_call(
        &mut self,
        told: Told,
        stamp: u32,
        length: u32,
        tray: &[u8],
        room: usize,
    ) -> (u32, Vec<u8>) {
        let (mut expected, mut left) = (vec![0xcc; room], vec![0xcc; room]);
        let joined = join(told, stamp, length, tray, &mut expected);
        let answered = self.peer.join(told, stamp, length, tray, &mut left);
        assert_eq!(answered, joined, "{told:?}, stamp {stamp}, length {length}");
        assert!(left == expected, "{told:?}, stamp {stamp}, length {length}");
        assert_eq!(answered.trials == 0, (1..=6).contains(&answered.number));
        self.tally.add(joined.number);
        (joined.number, left)
    }

    fn same(&mut self, tray: &Tray) -> (u32, Vec<u8>) {
        let length = tray.secret.len();
        self.same_call(tray.told, tray.stamp, tray.length(), &tray.bytes, length)
    }
}

fn any_tray(order: Order, random: &Random) -> Tray {
    let (told, stamp) = (cases::told_of(order, random), cases::stamp(random));
    Tray::cut(told, stamp, 1 + random.below(40), random)
}

/// Some keepers of the order, chosen by chance.
fn keepers(order: Order, count: u32, random: &Random) -> Vec<u32> {
    let chosen = random.sample(order.n as usize, count as usize);
    chosen.into_iter().map(|index| index as u32 + 1).collect()
}

/// Another word than the one held.
fn lie_at(tray: &mut Tray, keeper: u32, place: usize, random: &Random) {
    tray.add_to(keeper, place, random.between(1, 256));
}

fn lie_somewhere(tray: &mut Tray, keeper: u32, random: &Random) {
    let place = random.below(tray.secret.len());
    lie_at(tray, keeper, place, random);
}

/// Makes a slot unusable in one of many ways; the last are good letters for another keeper, and of
/// another key.
fn spoil(tray: &mut Tray, keeper: u32, random: &Random) {
    let another = keeper % tray.told.order.n + 1;
    let slot = slot(&mut tray.bytes, keeper);
    match random.below(7) {
        0 => slot.fill(0),
        1 => slot[random.below(512)] ^= 1 << random.below(8),
        2 => set_word(slot, 0, random.below(256), 257),
        3 => slot[SLOT - 1] = 1,
        4 => slot.copy_from_slice(&random.bytes(SLOT)),
        5 => forge_word(slot, 0, 5, another),
        _ => forge_word(slot, 0, 13, cases::other_key(tray.told.key, random)),
    }
}

#[test]
fn clean_trays_of_every_order() {
    let (random, mut joiners) = (&Random::new(41), Joiners::start());
    for order in Order::all() {
        for _ in 0..3 {
            let (told, stamp) = (cases::told_of(order, random), cases::stamp(random));
            let tray = Tray::cut(told, stamp, cases::length(random), random);
            assert_eq!(joiners.same(&tray), (0, tray.secret));
        }
    }
    joiners.tally.expect(486, &[0]);
}

#[test]
fn every_count_of_usable_letters() {
    let (random, mut joiners) = (&Random::new(42), Joiners::start());
    for order in Order::all() {
        for unusable in 0..=order.n {
            let mut tray = any_tray(order, random);
            for keeper in keepers(order, unusable, random) {
                spoil(&mut tray, keeper, random);
            }
            let number = if order.n - unusable < order.fewest() { 6 } else { 0 };
            assert_eq!(joiners.same(&tray).0, number);
        }
    }
    joiners.tally.expect(2033, &[0, 6]);
}

/// Good letters all of them, but of an older or newer cut, another length, another key or another order.
#[test]
fn stale_and_foreign_letters() {
    let (random, mut joiners) = (&Random::new(43), Joiners::start());
    for round in 0..600 {
        let order = cases::order(random);
        let mut tray = any_tray(order, random);
        let (told, stamp, length) = (tray.told, tray.stamp, tray.secret.len());
        let other_key = Told { key: cases::other_key(told.key, random), ..told };
        let other_order = Told { order: Order::new(order.t % 7 + 1, 0, order.n.max(8)), ..told };
        let other = match round % 4 {
            0 => Tray::cut(told, (stamp ^ 1).max(2), length, random),
            1 => Tray::cut(told, stamp, length % 952 + 1, random),
            2 => Tray::cut(other_key, stamp, length, random),
            _ => Tray::cut(other_order, stamp, length, random),
        };
        for keeper in keepers(order, random.between(0, order.n), random) {
            exchange_slot(&mut tray.bytes, &other.bytes, keeper);
        }
        joiners.same(&tray);
    }
    joiners.tally.expect(600, &[0, 6]);
}

#[test]
fn letters_in_the_wrong_slot() {
    let (random, mut joiners) = (&Random::new(44), Joiners::start());
    for _ in 0..500 {
        let order = cases::order(random);
        let mut tray = any_tray(order, random);
        for _ in 0..1 + random.below(3) {
            let from = random.between(1, order.n);
            let letter = slot(&mut tray.bytes, from).to_vec();
            slot(&mut tray.bytes, random.between(1, order.n)).copy_from_slice(&letter);
        }
        joiners.same(&tray);
    }
    joiners.tally.expect(500, &[0, 6]);
}

/// As many liars as are borne, and some beyond; with at most f the secret comes back.
fn with_liars(seed: u64, beyond: u32, tell: impl Fn(&mut Tray, u32, &Random)) -> Tally {
    let (random, mut joiners) = (&Random::new(seed), Joiners::start());
    for order in Order::all() {
        for liars in 0..=(order.f + beyond).min(order.n) {
            let mut tray = any_tray(order, random);
            for keeper in keepers(order, liars, random) {
                tell(&mut tray, keeper, random);
            }
            let (number, room) = joiners.same(&tray);
            assert!(liars > order.f || (number == 0 && room == tray.secret));
        }
    }
    joiners.tally
}

/// With t+1 keepers in all and f = 0, any words at all agree, even on a constant of 256.
#[test]
fn liars_at_every_word() {
    let everywhere = |tray: &mut Tray, keeper, random: &Random| {
        (0..tray.secret.len()).for_each(|place| lie_at(tray, keeper, place, random));
    };
    with_liars(45, 2, everywhere).expect(587, &[0, 7, 8]);
}

#[test]
fn liars_at_the_last_word_only() {
    let last = |tray: &mut Tray, keeper, random: &Random| {
        lie_at(tray, keeper, tray.secret.len() - 1, random);
    };
    with_liars(46, 1, last).expect(425, &[0, 7]);
}

#[test]
fn liars_at_one_word_each() {
    with_liars(47, 1, lie_somewhere).expect(425, &[0, 7]);
}

/// At most f lie at each word, but more than f in all: counted word by word all would be well.
#[test]
fn other_liars_at_other_words() {
    let (random, mut joiners) = (&Random::new(48), Joiners::start());
    let orders: Vec<Order> = Order::all().into_iter().filter(|order| order.f > 0).collect();
    for _ in 0..3 {
        for &order in &orders {
            let length = 4 + random.below(20);
            let mut tray = Tray::cut(cases::told_of(order, random), 3, length, random);
            let liars = keepers(order, order.f + random.between(1, 3), random);
            for (keeper, place) in liars.into_iter().zip((0..length).cycle()) {
                lie_at(&mut tray, keeper, place, random);
            }
            joiners.same(&tray);
        }
    }
    joiners.tally.expect(234, &[7]);
}

/// Need is t+f+1 where few letters are usable, and each liar takes a letter from those that agree.
#[test]
fn liars_among_few_letters() {
    let (random, mut joiners) = (&Random::new(49), Joiners::start());
    for order in Order::all() {
        for usable in order.fewest()..=(order.fewest() + order.f + 1).min(order.n) {
            for liars in 0..=order.f + 1 {
                let mut tray = any_tray(order, random);
                let mixed = keepers(order, order.n, random);
                let (absent, present) = mixed.split_at((order.n - usable) as usize);
                absent.iter().for_each(|&keeper| spoil(&mut tray, keeper, random));
                for &keeper in &present[..liars as usize] {
                    lie_somewhere(&mut tray, keeper, random);
                }
                let (number, room) = joiners.same(&tray);
                if liars <= order.f {
                    assert!(number != 0 || room == tray.secret, "a wrong secret");
                    assert_eq!(number == 0, usable - liars >= order.fewest());
                }
            }
        }
    }
    joiners.tally.expect(1100, &[0, 7]);
}

/// Liars that agree with each other, on a whole cut of their own.
#[test]
fn two_cuts_in_one_tray() {
    let (random, mut joiners) = (&Random::new(50), Joiners::start());
    for order in Order::all() {
        for _ in 0..3 {
            let mut tray = any_tray(order, random);
            let other = Tray::cut(tray.told, tray.stamp, tray.secret.len(), random);
            for keeper in keepers(order, random.between(1, order.n), random) {
                exchange_slot(&mut tray.bytes, &other.bytes, keeper);
            }
            joiners.same(&tray);
        }
    }
    joiners.tally.expect(486, &[0, 7, 8]);
}

#[test]
fn constants_of_256() {
    let (random, mut joiners) = (&Random::new(51), Joiners::start());
    for order in Order::all() {
        for liars in 0..=order.f + 1 {
            let mut tray = any_tray(order, random);
            tray.move_to_256(random.below(tray.secret.len()));
            for keeper in keepers(order, liars, random) {
                lie_somewhere(&mut tray, keeper, random);
            }
            joiners.same(&tray);
        }
    }
    joiners.tally.expect(390, &[7, 8]);
}

/// Few keepers and few values, so that chance makes agreements of every size.
#[test]
fn small_trays_by_chance() {
    let (random, mut joiners) = (&Random::new(52), Joiners::start());
    let orders = [Order::new(1, 1, 6), Order::new(1, 0, 4), Order::new(2, 1, 8)];
    for round in 0..2400 {
        let order = orders[round % 3];
        let mut tray = Tray::cut(cases::told_of(order, random), 9, 2, random);
        for keeper in 1..=order.n {
            let slot = slot(&mut tray.bytes, keeper);
            lie(slot, 0, *random.choose(&[keeper - 1, keeper - 1, keeper, 256]));
            lie(slot, 1, *random.choose(&[keeper, keeper, keeper, 4]));
            if random.once_in(3) {
                slot.fill(0);
            }
        }
        joiners.same(&tray);
    }
    joiners.tally.expect(2400, &[0, 6, 7, 8]);
}

/// The longest secrets under the largest orders, with the liars that make the longest search.
#[test]
fn the_largest_sizes() {
    let (random, mut joiners) = (&Random::new(53), Joiners::start());
    for (t, f) in [(3, 3), (7, 2), (7, 1), (5, 2), (1, 1), (7, 0)] {
        for liars in 0..=3 {
            for last in [true, false] {
                let told = cases::told_of(Order::new(t, f, 16), random);
                let mut tray = Tray::cut(told, 77, 952, random);
                for keeper in 1..=liars {
                    let places = if last { 951..952 } else { 0..40 };
                    places.for_each(|place| lie_at(&mut tray, keeper, place, random));
                }
                joiners.same(&tray);
            }
        }
    }
    joiners.tally.expect(48, &[0, 7]);
}

#[test]
fn every_small_order() {
    let (random, mut joiners) = (&Random::new(54), Joiners::start());
    for t in 0..=8 {
        for f in 0..=8 {
            for n in 0..=17 {
                let tray = random.bytes(n as usize * SLOT);
                joiners.same_call(cases::told_of(Order::new(t, f, n), random), 1, 1, &tray, 1);
            }
        }
    }
    joiners.tally.expect(1458, &[1, 6]);
}

#[test]
fn numbers_far_outside() {
    let (random, mut joiners) = (&Random::new(55), Joiners::start());
    for far in FAR {
        for Tray { told, stamp, secret, bytes } in
            [cases::order(random); 8].map(|order| any_tray(order, random))
        {
            let (Told { order, key }, length) = (told, secret.len());
            for told in [
                Told::new(Order { t: far, ..order }, key),
                Told::new(Order { f: far, ..order }, key),
                Told::new(Order { n: far, ..order }, key),
                Told::new(order, *random.choose(&NO_KEYS)),
            ] {
                joiners.same_call(told, stamp, length as u32, &bytes, length);
            }
            joiners.same_call(told, stamp, far.max(953), &bytes, length);
            joiners.same_call(told, stamp ^ far, length as u32, &bytes, length);
            joiners.same_call(told, 0, length as u32, &bytes, length);
        }
    }
    joiners.tally.expect(448, &[1, 2, 3, 6]);
}

#[test]
fn wrong_lengths_of_each_part() {
    let (random, mut joiners) = (&Random::new(56), Joiners::start());
    for _ in 0..60 {
        let Tray { told, stamp, secret, bytes } = any_tray(cases::order(random), random);
        let (length, size) = (secret.len(), bytes.len());
        for room in [0, length - 1, length + 1, 952, 953] {
            joiners.same_call(told, stamp, length as u32, &bytes, room);
        }
        for size in [0, 1, SLOT, size - SLOT, size - 1] {
            joiners.same_call(told, stamp, length as u32, &bytes[..size], length);
        }
        for more in [1, SLOT] {
            let longer = [bytes.as_slice(), &vec![0; more]].concat();
            joiners.same_call(told, stamp, length as u32, &longer, length);
        }
    }
    joiners.tally.expect(720, &[4]);
}

/// Whatever is wrong at once, the smallest number is given and nothing is written.
#[test]
fn several_refusals_at_once() {
    let (random, mut joiners) = (&Random::new(57), Joiners::start());
    for faults in (0..64).cycle().take(960) {
        let has = |fault: u32| faults >> fault & 1 == 1;
        let mut tray = any_tray(cases::order(random), random);
        let mut told = tray.told;
        let order = told.order;
        if has(4) {
            (1..=order.n).for_each(|keeper| spoil(&mut tray, keeper, random));
        }
        if has(5) {
            (1..=order.n).for_each(|keeper| lie_at(&mut tray, keeper, 0, random));
        }
        if has(0) && random.once_in(2) {
            told.order.n = order.t + 4 * order.f;
        } else if has(0) {
            told.key = *random.choose(&NO_KEYS);
        }
        let length = if has(1) { *random.choose(&[0, 953]) } else { tray.length() };
        let stamp = if has(2) { 0 } else { tray.stamp };
        let room = length as usize + usize::from(has(3));
        joiners.same_call(told, stamp, length, &tray.bytes, room);
    }
    joiners.tally.expect(960, &[0, 1, 2, 3, 4, 6, 7]);
}
