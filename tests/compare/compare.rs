//! `cs_compare` beside the second program's comparison, place by place.

use second::block::{BLOCK, WORDS};
use second::cases::{self, Tray, FAR};
use second::compare::{compare, Compared, Difference};
use second::cut::cut;
use second::damage::{exchange_slot, forge_word, set_word, slot, word};
use second::letter::SHARES_IN_BLOCK;
use second::order::{Order, SLOT};
use second::peer::Peer;
use second::random::Random;
use second::tally::Tally;
use second::told::Told;

const BLOCKS: usize = SLOT / BLOCK;

/// The two comparisons side by side.
struct Comparers {
    peer: Peer,
    tally: Tally,
}

impl Comparers {
    fn start() -> Comparers {
        Comparers { peer: Peer::start(), tally: Tally::default() }
    }

    /// The answer, and the list as it is left.
    fn same(
        &mut self,
        order: Order,
        first: &[u8],
        second: &[u8],
        list: &[Difference],
    ) -> (Compared, Vec<Difference>) {
        let (mut expected, mut left) = (list.to_vec(), list.to_vec());
        let compared = compare(order, first, second, &mut expected);
        let answered = self.peer.compare(order, first, second, &mut left);
        assert_eq!(answered, compared, "{order:?}, {} places", list.len());
        assert!(left == expected, "{order:?}, {} places, {compared:?}", list.len());
        self.tally.add(compared.number);
        (compared, left)
    }

    /// With no list, one that is a place short, one that is just enough, and longer ones. Gives what
    /// the one that is just enough then holds.
    fn same_with_each_list(
        &mut self,
        order: Order,
        first: &[u8],
        second: &[u8],
        random: &Random,
    ) -> Vec<Difference> {
        let count = self.same(order, first, second, &[]).0.count as usize;
        for places in [count.saturating_sub(1), count + 1, count + 2 + random.below(40)] {
            self.same(order, first, second, &list(places, random));
        }
        let (compared, found) = self.same(order, first, second, &list(count, random));
        assert_eq!(compared, Compared { number: 0, count: count as u32 });
        found
    }
}

fn place([slot, block, word, first, second]: [u16; 5]) -> Difference {
    Difference { slot, block, word, first, second }
}

/// A list of so many places, which hold something else before.
fn list(places: usize, random: &Random) -> Vec<Difference> {
    (0..places).map(|_| place(std::array::from_fn(|_| random.next() as u16))).collect()
}

/// An order for each number of keepers that a lawful one can have.
fn order_of_each_n(random: &Random) -> Vec<Order> {
    let of = |n| Order::all().into_iter().filter(|order| order.n == n).collect::<Vec<_>>();
    (2..=16).map(|n| *random.choose(&of(n))).collect()
}

fn any_cut(order: Order, random: &Random) -> Vec<u8> {
    let (told, stamp) = (cases::told_of(order, random), cases::stamp(random));
    Tray::cut(told, stamp, cases::length(random), random).bytes
}

/// Puts another word at a place, and says what a comparison is to tell of it.
fn change(tray: &mut [u8], keeper: u32, block: usize, at: usize, changed: u32) -> Difference {
    let slot = slot(tray, keeper);
    let before = word(slot, block, at);
    set_word(slot, block, at, changed);
    place([keeper as u16, block as u16, at as u16, before as u16, changed as u16])
}

/// The page's own sentences: each difference once, in rising order, with the words of both trays. Where
/// the words of the second are put into the first, no difference is left.
fn assert_tells_all(first: &[u8], second: &[u8], found: &[Difference]) {
    let at = |place: &Difference| (place.slot, place.block, place.word);
    assert!(found.windows(2).all(|pair| at(&pair[0]) < at(&pair[1])), "not in rising order");
    let mut tray = first.to_vec();
    for told in found {
        let [block, word] = [told.block, told.word].map(usize::from);
        assert_ne!(told.first, told.second);
        assert_eq!(change(&mut tray, told.slot.into(), block, word, told.second.into()), *told);
    }
    assert!(tray == second, "a difference is not told");
}

#[test]
fn worked_by_hand() {
    let (mut comparers, order) = (Comparers::start(), Order::new(1, 0, 2));
    let mut first = vec![0; 4096];
    let mut second = first.clone();
    first[..2].copy_from_slice(&[0x12, 0x34]);
    second[..2].copy_from_slice(&[0x12, 0x35]);
    second[1023] = 7;
    first[3072] = 255;
    first[4094..].copy_from_slice(&[255, 255]);
    second[4094..].copy_from_slice(&[0, 1]);
    let before = [place([9, 8, 7, 6, 5]); 5];
    let after = [
        place([1, 0, 0, 4660, 4661]),
        place([1, 1, 255, 0, 7]),
        place([2, 2, 0, 65280, 0]),
        place([2, 3, 255, 65535, 1]),
        place([9, 8, 7, 6, 5]),
    ];
    let (done, short) = (Compared { number: 0, count: 4 }, Compared { number: 18, count: 4 });
    assert_eq!(comparers.same(order, &first, &second, &before), (done, after.to_vec()));
    assert_eq!(comparers.same(order, &first, &second, &before[..4]), (done, after[..4].to_vec()));
    assert_eq!(comparers.same(order, &first, &second, &before[..3]), (short, before[..3].to_vec()));
    assert_eq!(comparers.same(order, &first, &second, &[]), (short, vec![]));
}

#[test]
fn equal_trays() {
    let (random, mut comparers) = (&Random::new(131), Comparers::start());
    for order in Order::all() {
        for tray in [any_cut(order, random), random.bytes(order.tray()), vec![0; order.tray()]] {
            for places in 0..3 {
                let (compared, _) =
                    comparers.same(order, &tray, &tray.clone(), &list(places, random));
                assert_eq!(compared, Compared { number: 0, count: 0 });
            }
        }
    }
    comparers.tally.expect(1458, &[0]);
}

/// The low byte alone, the high byte alone or both, in the first and the last words of each block of
/// each slot.
#[test]
fn one_word_at_each_border() {
    let (random, mut comparers) = (&Random::new(132), Comparers::start());
    for order in order_of_each_n(random) {
        let first = random.bytes(order.tray());
        for (keeper, block) in (1..=order.n).flat_map(|x| (0..BLOCKS).map(move |b| (x, b))) {
            for at in [0, 1, WORDS - 2, WORDS - 1] {
                let (low, high) = (random.between(1, 255), random.between(1, 255) * 256);
                for bits in [low, high, low + high] {
                    let mut second = first.clone();
                    let changed = word(slot(&mut second, keeper), block, at) ^ bits;
                    let told = change(&mut second, keeper, block, at, changed);
                    let lent = list(2, random);
                    let (compared, left) = comparers.same(order, &first, &second, &lent);
                    assert_eq!(compared, Compared { number: 0, count: 1 });
                    assert_eq!(left, [told, lent[1]]);
                }
            }
        }
    }
    comparers.tally.expect(6480, &[0]);
}

/// Whatever pieces a program takes at once, none of their bytes is passed over.
#[test]
fn each_byte_alone() {
    let (random, mut comparers) = (&Random::new(145), Comparers::start());
    let order = Order::new(1, 0, 2);
    let first = random.bytes(order.tray());
    for at in 0..order.tray() {
        let mut second = first.clone();
        second[at] ^= 1 << random.below(8);
        let (compared, found) = comparers.same(order, &first, &second, &list(1, random));
        assert_eq!(compared, Compared { number: 0, count: 1 });
        assert_tells_all(&first, &second, &found);
    }
    comparers.tally.expect(4096, &[0]);
}

/// In both bytes, in the low one alone and in the high one alone. With 16 slots that is 16,384 words.
#[test]
fn every_word() {
    let (random, mut comparers) = (&Random::new(133), Comparers::start());
    for order in order_of_each_n(random) {
        let first = random.bytes(order.tray());
        for bits in [[0xff, 0xff], [0, 0x01], [0x80, 0]] {
            let second: Vec<u8> =
                first.iter().zip(bits.iter().cycle()).map(|(byte, bits)| byte ^ bits).collect();
            let found = comparers.same_with_each_list(order, &first, &second, random);
            assert_eq!(found.len(), 1024 * order.n as usize);
            assert_tells_all(&first, &second, &found);
        }
    }
    comparers.tally.expect(225, &[0, 18]);
}

/// Words that no letter has are told as they are.
#[test]
fn raw_words() {
    let raw = [0, 1, 255, 256, 257, 258, 511, 512, 32_767, 32_768, 65_279, 65_280, 65_534, 65_535];
    let (random, mut comparers) = (&Random::new(134), Comparers::start());
    for (before, after) in raw.into_iter().flat_map(|word| raw.map(|other| (word, other))) {
        let order = cases::order(random);
        let mut first = random.bytes(order.tray());
        let keeper = random.between(1, order.n);
        let (block, at) = (random.below(BLOCKS), random.below(WORDS));
        change(&mut first, keeper, block, at, before);
        let mut second = first.clone();
        let told = change(&mut second, keeper, block, at, after);
        let found = comparers.same_with_each_list(order, &first, &second, random);
        assert_eq!(found, if before == after { vec![] } else { vec![told] });
    }
    comparers.tally.expect(980, &[0, 18]);
}

/// The same secret and random words under two keys and stamps. In each block one word alone differs, and with
/// it both check words.
fn two_cuts_that_differ_in(word: u16, cuts: [(u32, u32); 2], seed: u64) {
    let (random, mut comparers) = (&Random::new(seed), Comparers::start());
    for order in Order::all() {
        let length = cases::length(random);
        let (secret, words) = (random.bytes(length), random.words(length * order.t as usize));
        let [first, second] = cuts.map(|(key, stamp)| {
            let mut tray = vec![0; order.tray()];
            assert_eq!(cut(Told::new(order, key), stamp, &secret, &words, &mut tray), 0);
            tray
        });
        let found = comparers.same_with_each_list(order, &first, &second, random);
        let mut places = Vec::new();
        for slot in 1..=order.n as u16 {
            for block in 0..length.div_ceil(SHARES_IN_BLOCK) as u16 {
                places.extend([word, 254, 255].map(|word| (slot, block, word)));
            }
        }
        let told = found.iter().map(|told| (told.slot, told.block, told.word));
        assert_eq!(told.collect::<Vec<_>>(), places);
        let mut changed = found.iter().filter(|told| told.word == word);
        assert!(changed.all(|told| (told.first, told.second) == (7, 8)));
    }
    comparers.tally.expect(810, &[0, 18]);
}

#[test]
fn two_cuts_that_differ_in_the_stamp_alone() {
    two_cuts_that_differ_in(9, [(255, 7), (255, 8)], 135);
}

#[test]
fn two_cuts_that_differ_in_the_key_alone() {
    two_cuts_that_differ_in(13, [(7, 9), (8, 9)], 146);
}

/// Of other secrets, lengths and stamps.
#[test]
fn two_cuts() {
    let (random, mut comparers) = (&Random::new(136), Comparers::start());
    for order in Order::all() {
        let [first, second] = [(); 2].map(|()| any_cut(order, random));
        let found = comparers.same_with_each_list(order, &first, &second, random);
        assert_tells_all(&first, &second, &found);
    }
    comparers.tally.expect(810, &[0, 18]);
}

/// A letter damaged, forged, lost, replaced by one of another cut or by anything.
fn spoil(tray: &mut [u8], other: &[u8], order: Order, random: &Random) {
    let keeper = random.between(1, order.n);
    let (block, at) = (random.below(BLOCKS), random.below(WORDS));
    let slot = slot(tray, keeper);
    match random.below(6) {
        0 => set_word(slot, block, at, random.between(0, 65_535)),
        1 => forge_word(slot, block, at, random.between(0, 256)),
        2 => slot[random.below(SLOT)] ^= 1 << random.below(8),
        3 => slot.fill(0),
        4 => slot.copy_from_slice(&random.bytes(SLOT)),
        _ => exchange_slot(tray, other, keeper),
    }
}

#[test]
fn cut_trays_with_damage() {
    let (random, mut comparers) = (&Random::new(137), Comparers::start());
    for _ in 0..400 {
        let order = cases::order(random);
        let [first, other] = [(); 2].map(|()| any_cut(order, random));
        let (mut one, mut second) = (first.clone(), first);
        for _ in 0..1 + random.below(8) {
            spoil(&mut one, &other, order, random);
            spoil(&mut second, &other, order, random);
        }
        let found = comparers.same_with_each_list(order, &one, &second, random);
        assert_tells_all(&one, &second, &found);
    }
    comparers.tally.expect(2000, &[0, 18]);
}

#[test]
fn random_bytes() {
    let (random, mut comparers) = (&Random::new(138), Comparers::start());
    for round in 0..400 {
        let order = cases::order(random);
        let first = random.bytes(order.tray());
        let mut second = first.clone();
        match round % 4 {
            0 => second = random.bytes(order.tray()),
            _ => (0..random.below(300)).for_each(|_| {
                second[random.below(order.tray())] = random.next() as u8;
            }),
        }
        let found = comparers.same_with_each_list(order, &first, &second, random);
        assert_tells_all(&first, &second, &found);
    }
    comparers.tally.expect(2000, &[0, 18]);
}

/// 18 exactly where there are fewer places than differences.
#[test]
fn lists_of_each_size() {
    let (random, mut comparers) = (&Random::new(139), Comparers::start());
    let order = Order::new(1, 0, 3);
    for count in 0..=40 {
        let first = random.bytes(order.tray());
        let mut second = first.clone();
        for at in random.sample(order.tray() / 2, count) {
            second[2 * at + random.below(2)] ^= 1 << random.below(8);
        }
        for places in 0..=43 {
            let (compared, _) = comparers.same(order, &first, &second, &list(places, random));
            let number = if places < count { 18 } else { 0 };
            assert_eq!(compared, Compared { number, count: count as u32 });
        }
    }
    comparers.tally.expect(1804, &[0, 18]);
}

/// NULL for a list of no places: enough where nothing differs.
#[test]
fn no_list() {
    let (random, mut comparers) = (&Random::new(140), Comparers::start());
    comparers.peer = Peer::with_null();
    for order in Order::all() {
        let first = random.bytes(order.tray());
        let mut second = first.clone();
        assert_eq!(comparers.same(order, &first, &second, &[]).0.number, 0);
        second[random.below(order.tray())] ^= 1;
        let (compared, _) = comparers.same(order, &first, &second, &[]);
        assert_eq!(compared, Compared { number: 18, count: 1 });
    }
    comparers.tally.expect(324, &[0, 18]);
}

/// Each byte 0 of the first tray is 1 in the second, and each 1 is 0.
#[test]
fn every_small_order() {
    let (random, mut comparers) = (&Random::new(141), Comparers::start());
    for (t, f) in (0..=8).flat_map(|t| (0..=8).map(move |f| (t, f))) {
        for n in 0..=17 {
            let order = Order::new(t, f, n);
            let first = random.bytes(order.tray());
            let second: Vec<u8> = first.iter().map(|byte| byte ^ u8::from(*byte < 2)).collect();
            let places = *random.choose(&[0, 1, 1000]);
            comparers.same(order, &first, &second, &list(places, random));
        }
    }
    comparers.tally.expect(1458, &[0, 1, 18]);
}

#[test]
fn numbers_far_outside() {
    let (random, mut comparers) = (&Random::new(142), Comparers::start());
    for far in FAR {
        let order = cases::order(random);
        let [first, second] = [(); 2].map(|()| random.bytes(order.tray()));
        for (size, places) in [(0, 0), (0, 1), (order.tray(), 0), (order.tray(), 20_000)] {
            let lent = list(places, random);
            for order in
                [Order { t: far, ..order }, Order { f: far, ..order }, Order { n: far, ..order }]
            {
                comparers.same(order, &first[..size], &second[..size], &lent);
            }
        }
    }
    comparers.tally.expect(96, &[1]);
}

/// The first, the second, or both, by as much.
#[test]
fn trays_of_a_wrong_length() {
    let (random, mut comparers) = (&Random::new(143), Comparers::start());
    for order in Order::all() {
        let right = order.tray();
        let [first, second] = [(); 2].map(|()| random.bytes(right + SLOT));
        for wrong in [0, 1, SLOT, right - SLOT, right - 1, right + 1, right + SLOT] {
            for (one, other) in [(wrong, right), (right, wrong), (wrong, wrong)] {
                let lent = list(random.below(3), random);
                let (compared, _) = comparers.same(order, &first[..one], &second[..other], &lent);
                assert_eq!(compared, Compared { number: 4, count: 0 });
            }
        }
    }
    comparers.tally.expect(3402, &[4]);
}

/// 1 comes before 4, and 4 before 18.
#[test]
fn several_refusals_at_once() {
    let (random, mut comparers) = (&Random::new(144), Comparers::start());
    for faults in (0..16).cycle().take(960) {
        let has = |fault: u32| faults >> fault & 1 == 1;
        let mut order = cases::order(random);
        let [mut first, mut second] = [(); 2].map(|()| random.bytes(order.tray()));
        let enough = 1024 * order.n as usize;
        if has(0) {
            order.n = order.t + 4 * order.f;
        }
        if has(1) {
            first.truncate(random.below(first.len()));
        }
        if has(2) {
            second.resize(second.len() + 1 + random.below(SLOT), 3);
        }
        let places = if has(3) { random.below(900) } else { enough };
        let (compared, _) = comparers.same(order, &first, &second, &list(places, random));
        let mut refusals = [(0, 1), (1, 4), (2, 4), (3, 18)].into_iter();
        let number = refusals.find(|&(fault, _)| has(fault)).map_or(0, |(_, number)| number);
        assert_eq!(compared.number, number);
        assert_eq!(compared.count > 0, matches!(number, 0 | 18));
    }
    comparers.tally.expect(960, &[0, 1, 4, 18]);
}
