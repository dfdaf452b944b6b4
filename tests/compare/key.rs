//! Keys told to every call, and letters of several keys in one tray, at one desk and in one slot. The answer
//! is known from how each case was made, and both programs must give it. `report.rs` has what the report
//! says of keys.

use second::both::Both;
use second::cases::{self, Tray};
use second::damage::{self, exchange_slot, forge_word, slot, word};
use second::desk::{Desk, Stored};
use second::faults::Faults;
use second::join::Joined;
use second::letter::{Fault, Head, Letter, SHARES_IN_BLOCK};
use second::order::{Order, LONGEST, SLOT};
use second::peer::Peer;
use second::pick::Picked;
use second::random::Random;
use second::told::Told;

/// The first two keys and the last, and the first and the last number of none.
const NUMBERS: [u32; 5] = [0, 1, 255, 256, u32::MAX];

/// Lengths of one, two, three and four blocks.
const ONE_TO_FOUR_BLOCKS: [usize; 4] = [1, 300, 700, 952];

fn both() -> Both {
    Both::over(Peer::start())
}

fn blocks(length: usize) -> usize {
    length.div_ceil(SHARES_IN_BLOCK)
}

/// Keys that all differ.
fn keys<const COUNT: usize>(random: &Random) -> [u32; COUNT] {
    let mut keys = [256; COUNT];
    for i in 0..COUNT {
        while keys[i] == 256 || keys[..i].contains(&keys[i]) {
            keys[i] = cases::key(random);
        }
    }
    keys
}

fn nothing(number: u32) -> Picked {
    Picked { number, ..Picked::default() }
}

/// Lends each call that takes a key what it would take if the number were one.
fn tell_every_call(both: &mut Both, told: Told, tray: &Tray, random: &Random) {
    let (stamp, length) = (tray.stamp, tray.secret.len());
    let number = u32::from(told.key > 255);
    let words = random.words(length * told.order.t as usize);
    let mut cut = random.bytes(told.order.tray());
    assert_eq!(both.cut(told, stamp, &tray.secret, &words, &mut cut), number);

    let mut room = vec![0xcc; length];
    let left = if number == 0 { tray.secret.clone() } else { room.clone() };
    assert_eq!(both.join(told, stamp, length as u32, &tray.bytes, &mut room).number, number);
    assert_eq!(room, left);
    let named = Picked { number, stamp, length: length as u32 };
    assert_eq!(both.pick(told, &tray.bytes), if number == 0 { named } else { nothing(1) });

    let desk = Desk { told, keeper: random.between(1, told.order.n) };
    let (mut tray, mut held) = (tray.bytes.clone(), vec![0; SLOT]);
    let letter = slot(&mut tray, desk.keeper);
    assert_eq!(both.store(desk, &mut held, letter), Stored { number, place: 0 });
    assert_eq!(held == letter, number == 0);
    assert_eq!(both.fetch(desk, letter), number);
}

/// The letters are of the key that the low byte of the number would be.
#[test]
fn every_number_told_to_every_call() {
    let (random, mut both) = (&Random::new(171), both());
    for order in Order::all() {
        for key in NUMBERS {
            for length in [1, 239, 700] {
                let own = Told::new(order, key % 256);
                let tray = Tray::cut(own, cases::stamp(random), length, random);
                tell_every_call(&mut both, Told::new(order, key), &tray, random);
            }
        }
    }
    both.tally.expect(12_150, &[0, 1]);
}

/// Makes a call for each way to have some of these faults, several times over. With 1 the key is no key.
fn each(numbers: &[u32], times: usize, mut call: impl FnMut(Faults, Told), random: &Random) {
    for faults in Faults::each(numbers, times) {
        let told = cases::told(random);
        let no_key = *random.choose(&[256, u32::MAX, told.key + 256]);
        call(faults, if faults.has(1) { Told { key: no_key, ..told } } else { told });
    }
}

/// The order told, and the key whose letters are lent: that of the low byte where the number is no key.
fn lawful(told: Told) -> Told {
    Told { key: told.key % 256, ..told }
}

#[test]
fn refusals_of_the_cut_in_their_order() {
    let (random, mut both) = (&Random::new(172), both());
    let call = |faults: Faults, told: Told| {
        let length = if faults.has(2) { *random.choose(&[0, 953]) } else { 1 + random.below(20) };
        let stamp = if faults.has(3) { 0 } else { cases::stamp(random) };
        let mut words = random.words(length * told.order.t as usize);
        let mut tray = random.bytes(told.order.tray() - usize::from(faults.has(4)));
        if let Some(word) = words.last_mut().filter(|_| faults.has(5)) {
            *word = 257;
        }
        let number = both.cut(told, stamp, &random.bytes(length), &words, &mut tray);
        assert_eq!(number, faults.first());
    };
    each(&[1, 2, 3, 4, 5], 20, call, random);
    both.tally.expect(640, &[0, 1, 2, 3, 4, 5]);
}

#[test]
fn refusals_of_the_join_in_their_order() {
    let (random, mut both) = (&Random::new(173), both());
    let call = |faults: Faults, told: Told| {
        let mut tray = Tray::cut(lawful(told), cases::stamp(random), 1 + random.below(20), random);
        if faults.has(6) {
            tray.bytes.fill(0);
        }
        let length = if faults.has(2) { *random.choose(&[0, 953]) } else { tray.length() };
        let stamp = if faults.has(3) { 0 } else { tray.stamp };
        let mut room = vec![0xcc; length as usize + usize::from(faults.has(4))];
        let joined = both.join(told, stamp, length, &tray.bytes, &mut room);
        assert_eq!(joined.number, faults.first());
    };
    each(&[1, 2, 3, 4, 6], 20, call, random);
    both.tally.expect(640, &[0, 1, 2, 3, 4, 6]);
}

#[test]
fn refusals_of_the_pick_in_their_order() {
    let (random, mut both) = (&Random::new(174), both());
    let call = |faults: Faults, told: Told| {
        let mut tray = Tray::cut(lawful(told), cases::stamp(random), 1 + random.below(20), random);
        if faults.has(6) {
            tray.bytes.fill(0);
        }
        if faults.has(4) {
            tray.bytes.truncate(random.below(tray.bytes.len()));
        }
        assert_eq!(both.pick(told, &tray.bytes).number, faults.first());
    };
    each(&[1, 4, 6], 60, call, random);
    both.tally.expect(480, &[0, 1, 4, 6]);
}

#[test]
fn refusals_of_the_desk_in_their_order() {
    let (random, mut both) = (&Random::new(175), both());
    let call = |faults: Faults, told: Told| {
        let desk = Desk { told, keeper: random.between(1, told.order.n) };
        let own = Head { told: lawful(told), keeper: desk.keeper, stamp: 5, length: 300 };
        let mut held = cases::letter_of(own, random).slot();
        let stamp = if faults.has(14) { random.between(1, 4) } else { random.between(6, 9) };
        let key =
            if faults.has(16) { cases::other_key(own.told.key, random) } else { own.told.key };
        let head = Head { stamp, told: Told { key, ..own.told }, ..own };
        let mut letter = cases::letter_of(head, random).slot();
        if faults.has(12) {
            forge_word(&mut letter, 0, *random.choose(&[14, 15]), random.between(1, 256));
        }
        if faults.has(4) && random.once_in(2) {
            letter.push(0);
        } else if faults.has(4) {
            held.pop();
        }
        let stored = both.store(desk, &mut held, &letter);
        assert_eq!(stored, Stored { number: faults.first(), place: 0 });
    };
    each(&[1, 4, 12, 16, 14], 20, call, random);
    both.tally.expect(640, &[0, 1, 4, 12, 14, 16]);
}

#[test]
fn refusals_of_the_fetch_in_their_order() {
    let (random, mut both) = (&Random::new(176), both());
    let call = |faults: Faults, told: Told| {
        let desk = Desk { told, keeper: random.between(1, told.order.n) };
        let own = lawful(told).key;
        let key = if faults.has(17) { cases::other_key(own, random) } else { own };
        let head = Head { told: Told { key, ..told }, keeper: desk.keeper, ..cases::head(random) };
        let mut held = cases::letter_of(head, random).slot();
        if faults.has(4) {
            held.truncate(random.below(SLOT));
        }
        assert_eq!(both.fetch(desk, &held), faults.first());
    };
    each(&[1, 4, 17], 60, call, random);
    both.tally.expect(480, &[0, 1, 4, 17]);
}

/// Every key in every block of every letter, where the page has it, and zeros after it.
#[test]
fn the_key_in_the_letters_of_a_cut() {
    let (random, mut both) = (&Random::new(177), both());
    for key in 0..=255 {
        let length = *random.choose(&ONE_TO_FOUR_BLOCKS);
        let (told, stamp) = (Told::new(cases::order(random), key), cases::stamp(random));
        let words = random.words(length * told.order.t as usize);
        let mut tray = both.cut_tray(told, stamp, &random.bytes(length), &words);
        for keeper in 1..=told.order.n {
            let slot = slot(&mut tray, keeper);
            for place in 0..blocks(length) {
                assert_eq!([13, 14, 15].map(|i| word(slot, place, i)), [key, 0, 0]);
            }
            let head = Head { told, keeper, stamp, length: length as u32 };
            assert_eq!(both.read(slot), Ok(head));
        }
    }
    both.tally.expect(2500, &[0]);
}

/// A letter of some key, of so many bytes.
fn letter(length: usize, random: &Random) -> (Head, Vec<u8>) {
    let head = Head { length: length as u32, ..cases::head(random) };
    (head, cases::letter_of(head, random).slot())
}

fn fault(number: u32, place: usize) -> Result<Head, Fault> {
    Err(Fault { number, place: place as u32 })
}

/// With a good check. Block 0 says what the key is, so that where it alone has another the next is at fault.
#[test]
fn word_13_made_each_number_in_one_block() {
    let (random, mut both) = (&Random::new(178), both());
    for length in ONE_TO_FOUR_BLOCKS {
        let (head, good) = letter(length, random);
        for place in 0..head.blocks() {
            for made in (0..=300).chain([512, 32_768, 65_535]) {
                let mut slot = good.clone();
                forge_word(&mut slot, place, 13, made);
                let alone = head.blocks() == 1 || made == head.told.key;
                let expected = match made {
                    257.. => fault(9, place),
                    256 => fault(12, place),
                    key if alone => Ok(Head { told: Told { key, ..head.told }, ..head }),
                    _ => fault(12, place.max(1)),
                };
                assert_eq!(both.read(&slot), expected, "block {place}: {made}");
            }
        }
    }
    both.tally.expect(3040, &[0, 9, 12]);
}

/// In all blocks alike. The letter is then another key's, to the byte, or at fault in its first block.
#[test]
fn word_13_made_each_number_in_every_block() {
    let (random, mut both) = (&Random::new(179), both());
    for length in ONE_TO_FOUR_BLOCKS {
        let Letter { head, shares } = cases::letter_of(letter(length, random).0, random);
        for made in 0..=257 {
            let mut slot = Letter { head, shares: shares.clone() }.slot();
            (0..head.blocks()).for_each(|place| forge_word(&mut slot, place, 13, made));
            let other = Head { told: Told { key: made, ..head.told }, ..head };
            match made {
                257 => assert_eq!(both.read(&slot), fault(9, 0)),
                256 => assert_eq!(both.read(&slot), fault(12, 0)),
                _ => {
                    assert_eq!(both.read(&slot), Ok(other));
                    assert!(Letter { head: other, shares: shares.clone() }.slot() == slot);
                }
            }
        }
    }
    both.tally.expect(1032, &[0, 9, 12]);
}

#[test]
fn words_14_and_15_that_are_not_0() {
    let (random, mut both) = (&Random::new(180), both());
    for length in ONE_TO_FOUR_BLOCKS {
        let (head, good) = letter(length, random);
        for place in 0..head.blocks() {
            for at in [14, 15] {
                for made in [0, 1, 2, 7, 81, 128, 255, 256, 257, 512, 65_535, head.told.key] {
                    let mut slot = good.clone();
                    forge_word(&mut slot, place, at, made);
                    let expected = match made {
                        0 => Ok(head),
                        1..=256 => fault(12, place),
                        _ => fault(9, place),
                    };
                    assert_eq!(both.read(&slot), expected, "block {place}, word {at}: {made}");
                }
            }
        }
    }
    both.tally.expect(240, &[0, 9, 12]);
}

/// The same letters under another key: a cut of the same secret with the same random words.
fn under_key(key: u32, tray: &Tray) -> Tray {
    let mut other = Tray { told: Told { key, ..tray.told }, ..tray.clone() };
    for keeper in 1..=tray.told.order.n {
        let slot = slot(&mut other.bytes, keeper);
        (0..blocks(tray.secret.len())).for_each(|place| forge_word(slot, place, 13, key));
    }
    other
}

/// What the join answers where these keepers have letters of one cut, all as they were cut.
fn sound(order: Order, keepers: &[u32]) -> Joined {
    let usable = keepers.len() as u32;
    let need = order.fewest().max(usable.saturating_sub(order.f));
    if usable < order.fewest() {
        return Joined { number: 6, usable, need, set: 0, trials: 0 };
    }
    let set = keepers.iter().map(|keeper| 1 << (keeper - 1)).sum();
    Joined { number: 0, usable, need, set, trials: 1 }
}

/// Joins and picks a cut of which these keepers have the letters, all as they were cut. Whatever else is in the
/// tray is no matter.
fn find_sound(both: &mut Both, cut: &Tray, keepers: &[u32], tray: &[u8]) {
    let (stamp, length) = (cut.stamp, cut.length());
    let joined = sound(cut.told.order, keepers);
    let mut room = vec![0xcc; cut.secret.len()];
    let left = if joined.number == 0 { cut.secret.clone() } else { room.clone() };
    assert_eq!(both.join(cut.told, stamp, length, tray, &mut room), joined, "{:?}", cut.told);
    assert_eq!(room, left);
    let named = Picked { number: 0, stamp, length };
    let picked = if joined.number == 0 { named } else { nothing(6) };
    assert_eq!(both.pick(cut.told, tray), picked, "{:?}", cut.told);
}

/// Under one stamp and length every keeper has a letter of one key or of the other. Once in two both are of
/// the same secret and random words, so that all would go together if nobody looked at the key.
#[test]
fn letters_of_two_keys_in_one_tray() {
    let (random, mut both) = (&Random::new(181), both());
    for order in Order::all() {
        for count in 0..=order.n as usize {
            let [first, second, third] = keys(random);
            let stamp = cases::stamp(random);
            let one = Tray::cut(Told::new(order, first), stamp, 1 + random.below(9), random);
            let other = match random.below(2) {
                0 => under_key(second, &one),
                _ => Tray::cut(Told::new(order, second), stamp, one.secret.len(), random),
            };
            let mixed = cases::keepers(order, random);
            let (own, others) = mixed.split_at(count);
            let mut tray = one.bytes.clone();
            others.iter().for_each(|&keeper| exchange_slot(&mut tray, &other.bytes, keeper));
            find_sound(&mut both, &one, own, &tray);
            find_sound(&mut both, &other, others, &tray);
            find_sound(&mut both, &under_key(third, &one), &[], &tray);
        }
    }
    both.tally.expect(12_198, &[0, 6]);
}

/// How many letters are there of a cut whose join is to give this number.
fn size(order: Order, number: u32) -> usize {
    let size = match number {
        6 => order.fewest() - 1,
        7 => order.differing(),
        _ => order.fewest(),
    };
    size as usize
}

/// A cut, and the number that its join gives.
struct Cut {
    tray: Tray,
    number: u32,
}

impl Cut {
    /// Where these keepers have its letters, as many as `size` says.
    fn giving(number: u32, told: Told, stamp: u32, keepers: &[u32], random: &Random) -> Cut {
        let mut tray = Tray::cut(told, stamp, 4 + random.below(9), random);
        let borne = told.order.borne(keepers.len() as u32) as usize;
        match number {
            7 => tray.lie_apart(&keepers[..=borne], random),
            8 => tray.move_to_256(random.below(tray.secret.len())),
            _ => {}
        }
        Cut { tray, number }
    }

    fn picked(&self) -> Picked {
        match self.number {
            6 => nothing(6),
            number => Picked { number, stamp: self.tray.stamp, length: self.tray.length() },
        }
    }

    /// Picks and joins it, whatever else is in the tray.
    fn find(&self, both: &mut Both, tray: &[u8]) {
        let Tray { told, stamp, ref secret, .. } = self.tray;
        assert_eq!(both.pick(told, tray), self.picked(), "{told:?}");
        let mut room = vec![0xcc; secret.len()];
        let joined = both.join(told, stamp, self.tray.length(), tray, &mut room);
        assert_eq!(joined.number, self.number, "{told:?}");
        assert!(self.number != 0 || room == *secret, "{told:?}");
    }
}

/// Orders with room for two groups of any number.
fn wide_orders() -> impl Iterator<Item = Order> {
    Order::all().into_iter().filter(|order| 2 * order.differing() <= order.n)
}

/// Two groups of two keys, for each pair of numbers that their joins can give. Their stamps are equal, or
/// either is the greater. Neither stands in the other's way, or is answered in its place.
#[test]
fn groups_of_two_keys() {
    let (random, mut both) = (&Random::new(182), both());
    for order in wide_orders() {
        for (one, other) in [0, 6, 7, 8].into_iter().flat_map(|x| [0, 6, 7, 8].map(|y| (x, y))) {
            let keys: [u32; 3] = keys(random);
            let [first, second, third] = keys.map(|key| Told::new(order, key));
            let stamps = *random.choose(&[[5, 5], [5, 6], [6, 5]]);
            let mixed = cases::keepers(order, random);
            let (own, rest) = mixed.split_at(size(order, one));
            let others = &rest[..size(order, other)];
            let one = Cut::giving(one, first, stamps[0], own, random);
            let other = Cut::giving(other, second, stamps[1], others, random);
            let mut tray = vec![0; order.tray()];
            own.iter().for_each(|&keeper| exchange_slot(&mut tray, &one.tray.bytes, keeper));
            others.iter().for_each(|&keeper| exchange_slot(&mut tray, &other.tray.bytes, keeper));
            one.find(&mut both, &tray);
            other.find(&mut both, &tray);
            assert_eq!(both.pick(third, &tray), nothing(6));
        }
    }
    both.tally.expect(7000, &[0, 6, 7, 8]);
}

/// A letter that is offered to desks, and all that tells it from others.
#[derive(Clone, Copy, PartialEq)]
struct Offer {
    key: u32,
    stamp: u32,
    pattern: u32,
}

impl Offer {
    /// Of few stamps and patterns, so that old ones come back.
    fn any(key: u32, random: &Random) -> Offer {
        Offer { key, stamp: random.between(1, 9), pattern: random.between(0, 2) }
    }

    fn slot(self, desk: Desk) -> Vec<u8> {
        let Offer { key, stamp, pattern } = self;
        let told = Told { key, ..desk.told };
        let head = Head { told, keeper: desk.keeper, stamp, length: 1 + 240 * pattern };
        Letter { head, shares: vec![pattern; head.length as usize] }.slot()
    }
}

/// A slot, and the letter that it is to hold.
struct Holding {
    slot: Vec<u8>,
    held: Option<Offer>,
}

impl Holding {
    fn nothing() -> Holding {
        Holding { slot: vec![0; SLOT], held: None }
    }

    /// What a desk is to answer that is told this key.
    fn answer(&self, key: u32, offer: Offer) -> u32 {
        match self.held.filter(|held| held.key == key) {
            _ if offer.key != key => 16,
            Some(held) if offer.stamp < held.stamp => 14,
            Some(held) if offer.stamp == held.stamp && offer != held => 15,
            _ => 0,
        }
    }

    fn store(&mut self, both: &mut Both, desk: Desk, offer: Offer) {
        let number = self.answer(desk.told.key, offer);
        let stored = both.store(desk, &mut self.slot, &offer.slot(desk));
        assert_eq!(stored, Stored { number, place: 0 }, "{desk:?}");
        if number == 0 {
            self.held = Some(offer);
        }
        let held = self.held.map_or(vec![0; SLOT], |held| held.slot(desk));
        assert!(self.slot == held, "{desk:?}");
    }

    /// What is held for another key is not handed back.
    fn fetch(&self, both: &mut Both, desk: Desk) {
        let own = self.held.is_some_and(|held| held.key == desk.told.key);
        assert_eq!(both.fetch(desk, &self.slot), if own { 0 } else { 17 }, "{desk:?}");
    }
}

/// The desks of one keeper for two keys.
fn two_desks(random: &Random) -> [Desk; 2] {
    let Head { told, keeper, .. } = cases::head(random);
    let keys: [u32; 2] = keys(random);
    keys.map(|key| Desk { told: Told { key, ..told }, keeper })
}

/// Each letter is offered to both, and only one of them may take it.
#[test]
fn letters_of_two_keys_at_two_desks() {
    let (random, mut both) = (&Random::new(183), both());
    for _ in 0..40 {
        let desks = two_desks(random);
        let mut slots = [Holding::nothing(), Holding::nothing()];
        for _ in 0..50 {
            let offer = Offer::any(random.choose(&desks).told.key, random);
            for (holding, desk) in slots.iter_mut().zip(desks) {
                holding.store(&mut both, desk, offer);
                holding.fetch(&mut both, desk);
            }
        }
    }
    both.tally.expect(8000, &[0, 14, 15, 16, 17]);
}

/// One slot that is told now the one key and now the other: what it holds for the other counts as empty, and
/// gives way to any stamp.
#[test]
fn letters_of_two_keys_in_one_slot() {
    let (random, mut both) = (&Random::new(184), both());
    for _ in 0..40 {
        let desks = two_desks(random);
        let mut holding = Holding::nothing();
        for _ in 0..50 {
            let offer = Offer::any(random.choose(&desks).told.key, random);
            holding.store(&mut both, *random.choose(&desks), offer);
            desks.iter().for_each(|&desk| holding.fetch(&mut both, desk));
        }
    }
    both.tally.expect(6000, &[0, 14, 15, 16, 17]);
}

/// A good letter of another key is 16, whatever the slot holds and whichever stamp is the greater.
#[test]
fn another_key_at_the_desk_whatever_is_held() {
    let (random, mut both) = (&Random::new(185), both());
    for stamp in [1, 5, u32::MAX] {
        for _ in 0..40 {
            let [desk, other] = two_desks(random);
            let head = Head { told: desk.told, keeper: desk.keeper, stamp: 5, length: 300 };
            let own = cases::letter_of(head, random).slot();
            let mut damaged = own.clone();
            damaged[random.below(512)] ^= 1 << random.below(8);
            let letter = cases::letter_of(Head { told: other.told, stamp, ..head }, random).slot();
            let all = [(0, own), (17, damaged), (17, letter.clone()), (17, vec![0; SLOT])];
            for (number, before) in all {
                let mut held = before.clone();
                let stored = both.store(desk, &mut held, &letter);
                assert_eq!(stored, Stored { number: 16, place: 0 });
                assert!(held == before, "{desk:?}");
                assert_eq!(both.fetch(desk, &held), number);
            }
        }
    }
    both.tally.expect(960, &[0, 16, 17]);
}

/// Spoils a letter of another key than the desk's, and says how it then reads.
fn spoil(slot: &mut [u8], own: u32, round: usize, random: &Random) -> Stored {
    let place = random.below(4);
    let mut forge = |word, value, at: usize| {
        forge_word(slot, place, word, value);
        Fault { number: 12, place: at as u32 }
    };
    let Fault { number, place } = match round % 8 {
        0 => forge(13, 256, place),
        1 => forge(13, own, place.max(1)),
        2 => forge(*random.choose(&[14, 15]), random.between(1, 256), place),
        kind => damage::spoil(slot, 6 + kind as u32, place, random),
    };
    Stored { number, place }
}

/// 9 to 13 go before 16: what is not a good letter is nobody's.
#[test]
fn faulty_letters_of_another_key_at_the_desk() {
    let (random, mut both) = (&Random::new(186), both());
    for round in 0..1400 {
        let [desk, other] = two_desks(random);
        let length = 715 + random.below(LONGEST - 715) as u32;
        let head = Head { told: other.told, keeper: desk.keeper, stamp: 7, length };
        let mut letter = cases::letter_of(head, random).slot();
        let expected = spoil(&mut letter, desk.told.key, round, random);
        let mut held = vec![0; SLOT];
        assert_eq!(both.store(desk, &mut held, &letter), expected, "round {round}");
        assert!(held == [0; SLOT], "round {round}");
    }
    both.tally.expect(1400, &[9, 10, 11, 12, 13]);
}
