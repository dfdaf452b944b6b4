//! `cs_pick` beside the second program's pick.

use second::cases::{self, Tray, FAR, NO_KEYS};
use second::damage::{exchange_slot, forge_word, seal, set_word, slot};
use second::groups::{self, Groups};
use second::letter::Head;
use second::order::{Order, SLOT};
use second::peer::Peer;
use second::pick::{pick, Picked};
use second::random::Random;
use second::tally::Tally;
use second::told::Told;

/// The two picks side by side.
struct Pickers {
    peer: Peer,
    tally: Tally,
}

impl Pickers {
    fn start() -> Pickers {
        Pickers { peer: Peer::start(), tally: Tally::default() }
    }

    fn same(&mut self, told: Told, tray: &[u8]) -> Picked {
        let picked = pick(told, tray);
        assert_eq!(self.peer.pick(told, tray), picked, "{told:?}");
        self.tally.add(picked.number);
        picked
    }

    /// A tray with these groups, of which the answer is known.
    fn right(&mut self, groups: &Groups, random: &Random) {
        let picked = self.same(groups.told, &groups.tray(random));
        assert_eq!(picked, groups.picked(), "{groups:?}");
    }
}

/// A tray in which each keeper holds a letter of the group given for it, or nothing. Its words are drawn,
/// so the letters of a group go together only by chance, or where they are just t+1.
fn tray_of(told: Told, random: &Random, group: impl Fn(u32) -> Option<(u32, u32)>) -> Vec<u8> {
    let mut tray = vec![0; told.order.tray()];
    for keeper in 1..=told.order.n {
        if let Some((stamp, length)) = group(keeper) {
            let letter = cases::letter_of(Head { told, keeper, stamp, length }, random);
            slot(&mut tray, keeper).copy_from_slice(&letter.slot());
        }
    }
    tray
}

#[test]
fn one_group_of_every_size() {
    let (random, mut pickers) = (&Random::new(81), Pickers::start());
    for order in Order::all() {
        for size in 0..=order.n {
            let told = cases::told_of(order, random);
            let mixed = random.sample(order.n as usize, size as usize);
            let (stamp, length) = (cases::stamp(random), cases::length(random) as u32);
            let tray = tray_of(told, random, |keeper| {
                mixed.contains(&(keeper as usize - 1)).then_some((stamp, length))
            });
            let picked = pickers.same(told, &tray);
            assert_eq!(picked.number != 6, size >= order.fewest());
            let named = if picked.number == 6 { (0, 0) } else { (stamp, length) };
            assert_eq!((picked.stamp, picked.length), named);
        }
    }
    pickers.tally.expect(2033, &[0, 6, 7, 8]);
}

/// Orders with room for two groups that are large enough.
fn wide_orders() -> Vec<Order> {
    Order::all().into_iter().filter(|order| 2 * order.fewest() <= order.n).collect()
}

/// Where neither joins it is the greater stamp's, however small its group; the larger group is none the
/// better for it.
#[test]
fn two_groups_by_stamp() {
    let (random, mut pickers) = (&Random::new(82), Pickers::start());
    for order in wide_orders() {
        for _ in 0..5 {
            let told = cases::told_of(order, random);
            let (low, high) = (random.between(1, 300), random.between(301, u32::MAX));
            let few = order.fewest() - random.below(2) as u32;
            let length = cases::length(random) as u32;
            let tray = tray_of(told, random, |keeper| {
                Some(if keeper <= few { (high, length) } else { (low, 7) })
            });
            let picked = pickers.same(told, &tray);
            let greatest = if few == order.fewest() { high } else { low };
            assert!(picked.number == 0 || picked.stamp == greatest);
        }
    }
    pickers.tally.expect(400, &[0, 7, 8]);
}

/// One stamp with two lengths is two groups. Where neither joins it is the greater length's.
#[test]
fn two_groups_by_length() {
    let (random, mut pickers) = (&Random::new(83), Pickers::start());
    for order in wide_orders() {
        for _ in 0..5 {
            let told = cases::told_of(order, random);
            let (short, long) = (random.between(1, 400), random.between(401, 952));
            let few = order.fewest() - random.below(2) as u32;
            let stamp = cases::stamp(random);
            let tray = tray_of(told, random, |keeper| {
                Some((stamp, if keeper <= few { long } else { short }))
            });
            let picked = pickers.same(told, &tray);
            let greatest = if few == order.fewest() { long } else { short };
            assert!(picked.number == 0 || picked.length == greatest);
        }
    }
    pickers.tally.expect(400, &[0, 7, 8]);
}

#[test]
fn many_groups_by_chance() {
    let (random, mut pickers) = (&Random::new(84), Pickers::start());
    for _ in 0..3000 {
        let told = cases::told(random);
        let (stamps, lengths) = (random.between(1, 3), random.between(1, 2));
        let tray = tray_of(told, random, |_| {
            let group = (random.between(1, stamps), random.between(1, lengths) * 200);
            (random.below(8) > 0).then_some(group)
        });
        pickers.same(told, &tray);
    }
    pickers.tally.expect(3000, &[0, 6, 7, 8]);
}

/// Letters of several cuts, some with a constant of 256, one in four of another key. Each keeper has one or
/// none, and here and there it is a lie.
#[test]
fn many_cuts_by_chance() {
    let (random, mut pickers) = (&Random::new(89), Pickers::start());
    for _ in 0..1500 {
        let told = cases::told(random);
        let other = Told { key: cases::other_key(told.key, random), ..told };
        let cut = |_| {
            let told = if random.once_in(4) { other } else { told };
            Tray::cut(told, random.between(1, 3), 1 + random.below(3), random)
        };
        let mut cuts: Vec<Tray> = (0..random.between(1, 4)).map(cut).collect();
        cuts.iter_mut().filter(|_| random.once_in(4)).for_each(|cut| cut.move_to_256(0));
        let mut tray = vec![0; told.order.tray()];
        for keeper in 1..=told.order.n {
            let mut cut = random.choose(&cuts).clone();
            match random.below(12) {
                0 => continue,
                1 => cut.add_to(keeper, 0, random.between(1, 256)),
                _ => {}
            }
            exchange_slot(&mut tray, &cut.bytes, keeper);
        }
        pickers.same(told, &tray);
    }
    pickers.tally.expect(1500, &[0, 6, 7, 8]);
}

/// A newer write that reached so many keepers, and whatever comes of joining it. The others have the
/// older one, which joins where there are enough of them.
#[test]
fn an_unfinished_write() {
    let (random, mut pickers) = (&Random::new(151), Pickers::start());
    for order in Order::all() {
        for newer in 0..=order.n {
            let older = order.n - newer;
            let sound = if older >= order.fewest() { 0 } else { 6 };
            for &number in groups::numbers(order, newer) {
                let told = cases::told_of(order, random);
                let groups = Groups::new(told, &[newer, older], &[number, sound], random);
                pickers.right(&groups, random);
            }
        }
    }
    pickers.tally.expect(5500, &[0, 6, 7, 8]);
}

/// Of as many groups as there is room for each is in its turn the first that joins, and then none is.
#[test]
fn each_of_several_groups() {
    let (random, mut pickers) = (&Random::new(152), Pickers::start());
    for order in wide_orders() {
        for count in 2..=(order.n / order.fewest()) as usize {
            for first in 0..=count {
                for _ in 0..2 {
                    let told = cases::told_of(order, random);
                    let groups = Groups::first_joins(told, count, first, random);
                    pickers.right(&groups, random);
                }
            }
        }
    }
    pickers.tally.expect(1400, &[0, 6, 7, 8]);
}

/// The most that there can be. Two letters always lie on one line, so 7 is not among the answers.
#[test]
fn eight_groups() {
    let (random, mut pickers) = (&Random::new(153), Pickers::start());
    let told = Told::new(Order::new(1, 0, 16), 255);
    for first in 0..=8 {
        for _ in 0..20 {
            pickers.right(&Groups::first_joins(told, 8, first, random), random);
        }
        for refusal in [6, 8] {
            let numbers: Vec<u32> = (0..8).map(|i| if i == first { 0 } else { refusal }).collect();
            pickers.right(&Groups::large(told, &numbers, random), random);
        }
    }
    pickers.tally.expect(198, &[0, 6, 8]);
}

/// Two groups for each pair of numbers that their joins can give, in each order with room for that.
fn pairs(random: &Random) -> Vec<Groups> {
    let mut pairs = Vec::new();
    for order in wide_orders().into_iter().filter(|order| 2 * (order.t + 2) <= order.n) {
        for greater in [0, 6, 7, 8] {
            for less in [0, 6, 7, 8] {
                let told = cases::told_of(order, random);
                pairs.push(Groups::large(told, &[greater, less], random));
            }
        }
    }
    pairs
}

#[test]
fn two_groups_of_every_number() {
    let (random, mut pickers) = (&Random::new(154), Pickers::start());
    for groups in pairs(random) {
        pickers.right(&groups, random);
    }
    pickers.tally.expect(1400, &[0, 6, 7, 8]);
}

#[test]
fn two_lengths_of_every_number() {
    let (random, mut pickers) = (&Random::new(155), Pickers::start());
    for groups in pairs(random) {
        pickers.right(&groups.of_one_stamp(random), random);
    }
    pickers.tally.expect(1400, &[0, 6, 7, 8]);
}

/// All heads say one stamp and length, but the letters of most are not good.
#[test]
fn heads_alone() {
    let (random, mut pickers) = (&Random::new(156), Pickers::start());
    for order in Order::all() {
        for _ in 0..3 {
            let groups = Groups::new(cases::told_of(order, random), &[order.n], &[6], random);
            pickers.right(&groups, random);
        }
    }
    pickers.tally.expect(486, &[6]);
}

/// Words 6..11 of a head, four of the stamp and two of the length, which no good letter has. Some would
/// pass for stamp 258 and length 300 where only low bytes are looked at, or where both are put into one
/// number: 258 times 1024 and 300 is as much as 257 times 1024 and 1324.
const NO_HEADS: [[u32; 6]; 16] = [
    [0, 0, 0, 0, 1, 44],
    [0, 0, 1, 2, 0, 0],
    [0, 0, 1, 2, 3, 185],
    [0, 0, 1, 2, 3, 255],
    [0, 0, 1, 2, 4, 0],
    [0, 0, 1, 2, 255, 255],
    [255, 255, 255, 255, 255, 255],
    [0, 0, 1, 1, 5, 44],
    [255, 255, 255, 255, 4, 1],
    [256, 0, 1, 2, 1, 44],
    [0, 0, 0, 258, 1, 44],
    [0, 0, 257, 2, 1, 44],
    [0, 0, 1, 2, 256, 44],
    [0, 0, 1, 2, 257, 44],
    [0, 0, 1, 2, 0, 300],
    [65535, 65535, 65535, 65535, 65535, 65535],
];

/// Heads like these make no group, and fill up none that is one letter short.
#[test]
fn heads_of_no_letter() {
    let (random, mut pickers) = (&Random::new(157), Pickers::start());
    for head in NO_HEADS {
        for order in Order::all().into_iter().step_by(4) {
            for good in [order.fewest() - 1, order.fewest()] {
                let told = cases::told_of(order, random);
                let mut tray = Tray::cut(told, 258, 300, random).bytes;
                let mixed = random.sample(order.n as usize, order.n as usize);
                for index in mixed.into_iter().skip(good as usize) {
                    let slot = slot(&mut tray, index as u32 + 1);
                    for block in 0..2 {
                        (6..).zip(head).for_each(|(i, word)| set_word(slot, block, i, word));
                        seal(slot, block);
                    }
                }
                let found = Picked { number: 0, stamp: 258, length: 300 };
                assert_eq!(pickers.same(told, &tray) == found, good == order.fewest());
            }
        }
    }
    pickers.tally.expect(1300, &[0, 6]);
}

/// Damaged letters, letters of another order or key and letters in another's slot count in no group. One that
/// is forged to be in its own slot after all is a lie.
#[test]
fn letters_that_count_in_no_group() {
    let (random, mut pickers) = (&Random::new(85), Pickers::start());
    for _ in 0..1500 {
        let told = cases::told(random);
        let (order, stamp) = (told.order, random.between(1, 3));
        let mut tray = Tray::cut(told, stamp, 1 + random.below(300), random).bytes;
        for _ in 0..random.below(order.n as usize) {
            let keeper = random.between(1, order.n);
            let other = slot(&mut tray, random.between(1, order.n)).to_vec();
            let slot = slot(&mut tray, keeper);
            match random.below(5) {
                0 => slot.copy_from_slice(&other),
                1 => set_word(slot, 0, random.below(256), random.between(0, 270)),
                2 => forge_word(slot, 0, 2 + random.below(14), random.between(0, 20)),
                3 => slot[random.below(SLOT)] ^= 1,
                _ => slot.fill(0),
            }
        }
        pickers.same(told, &tray);
    }
    pickers.tally.expect(1500, &[0, 6, 7]);
}

#[test]
fn every_small_order() {
    let (random, mut pickers) = (&Random::new(86), Pickers::start());
    for t in 0..=8 {
        for f in 0..=8 {
            for n in 0..=17 {
                let told = cases::told_of(Order::new(t, f, n), random);
                pickers.same(told, &random.bytes(n as usize * SLOT));
            }
        }
    }
    pickers.tally.expect(1458, &[1, 6]);
}

#[test]
fn numbers_far_outside() {
    let (random, mut pickers) = (&Random::new(87), Pickers::start());
    for far in FAR {
        let told = cases::told(random);
        let tray = Tray::cut(told, 5, 9, random).bytes;
        let Told { order, key } = told;
        for size in [0, tray.len()] {
            pickers.same(Told::new(Order { t: far, ..order }, key), &tray[..size]);
            pickers.same(Told::new(Order { f: far, ..order }, key), &tray[..size]);
            pickers.same(Told::new(Order { n: far, ..order }, key), &tray[..size]);
            pickers.same(Told::new(order, *random.choose(&NO_KEYS)), &tray[..size]);
        }
    }
    pickers.tally.expect(64, &[1]);
}

#[test]
fn trays_of_a_wrong_length() {
    let (random, mut pickers) = (&Random::new(88), Pickers::start());
    for order in Order::all() {
        let told = cases::told_of(order, random);
        let tray = Tray::cut(told, 5, 9, random).bytes;
        for size in [0, 1, SLOT, tray.len() - SLOT, tray.len() - 1] {
            pickers.same(told, &tray[..size]);
        }
        for more in [1, SLOT] {
            pickers.same(told, &[tray.as_slice(), &vec![0; more]].concat());
        }
        let few = Order { n: order.t + 4 * order.f, ..order };
        pickers.same(Told { order: few, ..told }, &tray[..1]);
        pickers.same(Told { key: *random.choose(&NO_KEYS), ..told }, &tray[..1]);
    }
    pickers.tally.expect(1458, &[1, 4]);
}
