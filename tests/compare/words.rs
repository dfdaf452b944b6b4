//! The cut of words, and the cutting of one, beside the second program's. Both are functions for other
//! crates, and C has them through `crates/inner` alone.

use second::cases::{self, Tray, FAR, LENGTHS};
use second::cut::cut_words;
use second::damage::{share, slot};
use second::field::{add, multiply, P};
use second::order::{Order, LONGEST};
use second::peer::Peer;
use second::random::Random;
use second::solve::solve;
use second::tally::Tally;

/// All that is lent to one cut of words.
#[derive(Clone)]
struct Lent {
    order: Order,
    constants: Vec<u16>,
    words: Vec<u16>,
    rows: Vec<u16>,
}

impl Lent {
    /// Of the right sizes where the order is lawful, with rows that hold something else before. Every
    /// fourth constant or so is 256.
    fn new(order: Order, length: usize, random: &Random) -> Lent {
        let mut constants = random.words(length);
        constants.iter_mut().filter(|_| random.once_in(4)).for_each(|word| *word = 256);
        Lent::of(order, constants, random)
    }

    fn of(order: Order, constants: Vec<u16>, random: &Random) -> Lent {
        let (t, keepers) = (order.t.min(8) as usize, order.n.min(17) as usize);
        let words = random.words(constants.len() * t);
        let rows = (0..constants.len() * keepers).map(|_| random.next() as u16).collect();
        Lent { order, constants, words, rows }
    }

    fn any(random: &Random) -> Lent {
        Lent::new(cases::order(random), 1 + random.below(30), random)
    }
}

/// The two cuts side by side.
struct Cutters {
    peer: Peer,
    tally: Tally,
}

impl Cutters {
    fn start() -> Cutters {
        Cutters { peer: Peer::start(), tally: Tally::default() }
    }

    /// The rows that both leave.
    fn same(&mut self, lent: &Lent) -> Vec<u16> {
        let Lent { order, constants, words, rows } = lent;
        let (mut expected, mut left) = (rows.clone(), rows.clone());
        let number = cut_words(*order, constants, words, &mut expected);
        let answered = self.peer.cut_words(*order, constants, words, &mut left);
        assert_eq!(answered, number, "{order:?}, {} words", constants.len());
        assert!(left == expected, "{order:?}, {} words", constants.len());
        self.tally.add(number);
        left
    }
}

#[test]
fn every_order() {
    let (random, mut cutters) = (&Random::new(81), Cutters::start());
    for order in Order::all() {
        for _ in 0..8 {
            cutters.same(&Lent::new(order, cases::length(random), random));
        }
    }
    cutters.tally.expect(1296, &[0]);
}

/// At each place of the longest list in turn the only 256.
#[test]
fn a_word_of_256_in_every_place() {
    let (random, mut cutters) = (&Random::new(82), Cutters::start());
    for place in 0..LONGEST {
        let mut constants: Vec<u16> = random.bytes(LONGEST).into_iter().map(u16::from).collect();
        constants[place] = 256;
        cutters.same(&Lent::of(cases::order(random), constants, random));
    }
    cutters.tally.expect(952, &[0]);
}

#[test]
fn every_length() {
    let (random, mut cutters) = (&Random::new(83), Cutters::start());
    for length in 1..=LONGEST {
        cutters.same(&Lent::new(cases::order(random), length, random));
    }
    cutters.tally.expect(952, &[0]);
}

#[test]
fn constants_all_alike_and_highest_coefficients_0() {
    let (random, mut cutters) = (&Random::new(84), Cutters::start());
    for order in Order::all() {
        let t = order.t as usize;
        for word in [0, 255, 256] {
            let mut lent = Lent::new(order, *random.choose(&LENGTHS), random);
            lent.constants.fill(word);
            cutters.same(&lent);
            lent.words.iter_mut().skip(t - 1).step_by(t).for_each(|word| *word = 0);
            cutters.same(&lent);
            lent.words.fill(256);
            cutters.same(&lent);
        }
    }
    cutters.tally.expect(1458, &[0]);
}

/// 256 is a word like any other; 257 is one too many, in the last place as in the first, among the
/// constants as among the random words.
#[test]
fn words_256_and_257() {
    let (random, mut cutters) = (&Random::new(85), Cutters::start());
    for round in 0..1200 {
        let mut lent = Lent::any(random);
        let part = if round % 2 == 0 { &mut lent.constants } else { &mut lent.words };
        let last = part.len() - 1;
        let at = *random.choose(&[0, last, random.below(last + 1)]);
        part[at] = [256, 257, 258, 512, 65535, 256][round / 2 % 6];
        cutters.same(&lent);
    }
    cutters.tally.expect(1200, &[0, 5]);
}

/// n = t+4f and t+4f+1, with every length at which the answer changes.
#[test]
fn the_edges_of_order_and_length() {
    let (random, mut cutters) = (&Random::new(86), Cutters::start());
    for t in 1..=7 {
        for f in (0..=t).filter(|f| t + 4 * f < 16) {
            for n in [t + 4 * f, t + 4 * f + 1] {
                for length in [0, 1, 238, 239, 952, 953] {
                    cutters.same(&Lent::new(Order::new(t, f, n), length, random));
                }
            }
        }
    }
    cutters.tally.expect(252, &[0, 1, 2]);
}

#[test]
fn orders_small_and_far_outside() {
    let (random, mut cutters) = (&Random::new(87), Cutters::start());
    for t in 0..=8 {
        for f in 0..=8 {
            for n in 0..=17 {
                cutters.same(&Lent::new(Order::new(t, f, n), 1, random));
            }
        }
    }
    for round in 0..300 {
        let mut lent = Lent::any(random);
        let far = *random.choose(&FAR);
        match round % 3 {
            0 => lent.order.t = far,
            1 => lent.order.f = far,
            _ => lent.order.n = far,
        }
        cutters.same(&lent);
    }
    cutters.tally.expect(1758, &[0, 1]);
}

#[test]
fn wrong_lengths_of_each_part() {
    let (random, mut cutters) = (&Random::new(88), Cutters::start());
    for round in 0..1000 {
        let mut lent = Lent::any(random);
        let (words, rows) = (lent.words.len(), lent.rows.len());
        let (t, length) = (lent.order.t as usize, lent.constants.len());
        match round % 10 {
            0 => lent.words.truncate(words - 1),
            1 => lent.words.push(3),
            2 => lent.words.resize(words + t, 3),
            3 => lent.words.clear(),
            4 => lent.rows.truncate(rows - 1),
            5 => lent.rows.push(3),
            6 => lent.rows.resize(rows + length, 3),
            7 => lent.rows.truncate(rows - length),
            8 => lent.rows.clear(),
            _ => lent.constants.push(3),
        }
        cutters.same(&lent);
    }
    cutters.tally.expect(1000, &[4]);
}

/// Whatever is wrong at once, the smallest number is given and nothing is changed.
#[test]
fn several_refusals_at_once() {
    let (random, mut cutters) = (&Random::new(89), Cutters::start());
    for faults in (0..32).cycle().take(960) {
        let has = |fault: u32| faults >> fault & 1 == 1;
        let length = if has(1) { *random.choose(&[0, 953, 1000]) } else { 1 + random.below(20) };
        let mut lent = Lent::new(cases::order(random), length, random);
        if has(0) {
            lent.order.n = lent.order.t + 4 * lent.order.f;
        }
        if has(2) && random.once_in(2) {
            lent.rows.push(9);
        } else if has(2) {
            lent.words.push(9);
        }
        if let Some(word) = lent.words.last_mut().filter(|_| has(3)) {
            *word = 257;
        }
        if let Some(word) = lent.constants.last_mut().filter(|_| has(4)) {
            *word = 257;
        }
        cutters.same(&lent);
    }
    cutters.tally.expect(960, &[0, 1, 2, 4, 5]);
}

/// Bytes are a case of words: cut as words, a secret gives each keeper the share words that its letter has.
#[test]
fn bytes_cut_as_words() {
    let (random, mut cutters) = (&Random::new(90), Cutters::start());
    for order in Order::all() {
        let (secret, stamp) = (random.bytes(cases::length(random)), cases::stamp(random));
        let constants = secret.iter().map(|&byte| u16::from(byte)).collect();
        let lent = Lent::of(order, constants, random);
        let rows = cutters.same(&lent);
        let (told, mut tray) = (cases::told_of(order, random), vec![0; order.tray()]);
        assert_eq!(cutters.peer.cut(told, stamp, &secret, &lent.words, &mut tray), 0);
        for (row, keeper) in rows.chunks(secret.len()).zip(1..) {
            let letter = slot(&mut tray, keeper);
            let same = |(place, &word): (usize, &u16)| share(letter, place) == u32::from(word);
            assert!(row.iter().enumerate().all(same), "{order:?}, keeper {keeper}");
        }
    }
    cutters.tally.expect(162, &[0]);
}

/// A keeper's share words cut in their turn: t+1 rows, drawn anew for each order, give them back, 256 too.
#[test]
fn share_words_cut_again() {
    let (random, mut cutters) = (&Random::new(91), Cutters::start());
    let mut largest = 0;
    for order in Order::all() {
        let mut tray = Tray::cut(cases::told(random), 1, LONGEST, random);
        let letter = slot(&mut tray.bytes, 1);
        let constants: Vec<u16> = (0..LONGEST).map(|place| share(letter, place) as u16).collect();
        largest += constants.iter().filter(|&&word| word == 256).count();
        let lent = Lent::of(order, constants, random);
        let rows = cutters.same(&lent);
        let keepers = random.sample(order.n as usize, order.t as usize + 1);
        let points: Vec<u32> = keepers.iter().map(|&keeper| keeper as u32 + 1).collect();
        for (place, &constant) in lent.constants.iter().enumerate() {
            let word = |&keeper: &usize| u32::from(rows[keeper * LONGEST + place]);
            let values: Vec<u32> = keepers.iter().map(word).collect();
            assert_eq!(solve(&points, &values)[0], u32::from(constant), "{order:?}, place {place}");
        }
    }
    println!("{largest} share words were 256");
    assert!(largest > 300);
    cutters.tally.expect(162, &[0]);
}

/// With t=1 each keeper may get any word from any constant, by exactly one random word: all 257 are tried.
#[test]
fn one_random_word_for_each_constant() {
    let (random, mut cutters) = (&Random::new(92), Cutters::start());
    let every: Vec<u16> = (0..=256).collect();
    for order in Order::all().into_iter().filter(|order| order.t == 1) {
        for constant in [0, 1, 128, 255, 256] {
            let mut lent = Lent::of(order, vec![constant; every.len()], random);
            lent.words.clone_from(&every);
            for row in cutters.same(&lent).chunks(every.len()) {
                let mut reached = row.to_vec();
                reached.sort_unstable();
                assert!(reached == every, "{order:?}, constant {constant}");
            }
        }
    }
    cutters.tally.expect(130, &[0]);
}

/// The value at x term by term, with no rule of Horner's.
fn term_by_term(constant: u16, coefficients: &[u16], x: u16) -> u32 {
    let terms = std::iter::once(&constant).chain(coefficients);
    let mut power = 1;
    terms.fold(0, |sum, &coefficient| {
        let term = multiply(u32::from(coefficient) % P, power);
        power = multiply(power, u32::from(x) % P);
        add(sum, term)
    })
}

/// Every constant 0 to 256 for every keeper, and any words at all.
#[test]
fn the_cutting_of_one_value() {
    let (random, mut peer) = (&Random::new(93), Peer::start());
    let mut same = |constant: u16, coefficients: &[u16], x: u16| {
        let expected = term_by_term(constant, coefficients, x);
        let word = peer.share_word(constant, coefficients, x);
        assert_eq!(word, expected, "constant {constant}, {coefficients:?}, keeper {x}");
    };
    for constant in 0..=256 {
        for x in 1..=16 {
            same(constant, &random.words(1 + random.below(7)), x);
        }
    }
    for _ in 0..2000 {
        let any = |_| random.next() as u16;
        let coefficients: Vec<u16> = (0..random.below(20)).map(any).collect();
        same(random.next() as u16, &coefficients, random.next() as u16);
    }
}
