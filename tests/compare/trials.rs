//! The join's count of trials, three times over: by the library, which adds up how many sets it passes
//! over; by the second program, which tries one set after the other; and by how the tray was made.

use second::cases::{self, Tray};
use second::damage::{exchange_slot, slot};
use second::join::{join, Joined};
use second::order::Order;
use second::peer::Peer;
use second::random::Random;
use second::solve::subsets;
use second::tally::Tally;

/// 16 choose 8: no count is greater.
const MOST: u32 = 12_870;

/// Some keepers as a number, in which a lower keeper is a higher bit. Of two sets of one size the first in
/// dictionary order has the lowest keeper that only one of them has, and so it is the greater number.
fn number_of(keepers: &[u32]) -> u16 {
    keepers.iter().map(|keeper| 1 << (16 - keeper)).sum()
}

/// How many sets of `size` of these keepers there are up to this one, which is counted too.
fn sets_up_to(last: &[u32], keepers: &[u32], size: u32) -> u32 {
    let others = !number_of(keepers);
    let is_one = |set: &u16| set & others == 0 && set.count_ones() == size;
    (number_of(last)..=u16::MAX).filter(is_one).count() as u32
}

/// A tray of which it is known who agrees.
struct Made {
    tray: Tray,
    usable: Vec<u32>,
    /// The usable keepers whose letters are as they were cut.
    agreeing: Vec<u32>,
    /// What the join gives where they are enough: 0 or 8.
    number: u32,
}

impl Made {
    /// A cut of which some letters are missing and some lie. Once in three a constant is 256.
    fn cut(order: Order, absent: &[u32], liars: &[u32], random: &Random) -> Made {
        let (told, stamp) = (cases::told_of(order, random), cases::stamp(random));
        let mut tray = Tray::cut(told, stamp, 4 + random.below(5), random);
        let number = if random.once_in(3) { 8 } else { 0 };
        if number == 8 {
            tray.move_to_256(random.below(tray.secret.len()));
        }
        tray.lie_apart(liars, random);
        absent.iter().for_each(|&keeper| slot(&mut tray.bytes, keeper).fill(0));
        let mut usable = all(order);
        usable.retain(|keeper| !absent.contains(keeper));
        let mut agreeing = usable.clone();
        agreeing.retain(|keeper| !liars.contains(keeper));
        Made { tray, usable, agreeing, number }
    }

    /// How many sets of t+1 usable keepers there are.
    fn sets(&self) -> u32 {
        sets_up_to(&[], &self.usable, self.tray.told.order.t + 1)
    }

    fn joined(&self) -> Joined {
        let (order, usable) = (self.tray.told.order, self.usable.len() as u32);
        let need = usable - order.borne(usable);
        if (self.agreeing.len() as u32) < need {
            return Joined { number: 7, usable, need, set: 0, trials: self.sets() };
        }
        let set = self.agreeing.iter().map(|keeper| 1 << (keeper - 1)).sum();
        let first = &self.agreeing[..order.t as usize + 1];
        let trials = sets_up_to(first, &self.usable, order.t + 1);
        Joined { number: self.number, usable, need, set, trials }
    }
}

/// The library, and what it answered.
struct Counts {
    peer: Peer,
    tally: Tally,
}

impl Counts {
    fn start() -> Counts {
        Counts { peer: Peer::start(), tally: Tally::default() }
    }

    fn same(&mut self, made: &Made) -> Joined {
        let Tray { told, stamp, ref secret, ref bytes } = made.tray;
        let (length, joined) = (made.tray.length(), made.joined());
        let (mut room, mut left) = (vec![0xcc; secret.len()], vec![0xcc; secret.len()]);
        let expected = if joined.number == 0 { secret.clone() } else { room.clone() };
        assert_eq!(self.peer.join(told, stamp, length, bytes, &mut left), joined, "{told:?}");
        assert_eq!(join(told, stamp, length, bytes, &mut room), joined, "{told:?}");
        assert!(left == expected && room == expected, "{told:?}");
        assert!(joined.trials <= made.sets() && made.sets() <= MOST, "{told:?}");
        self.tally.add(joined.number);
        joined
    }
}

fn all(order: Order) -> Vec<u32> {
    (1..=order.n).collect()
}

/// The orders of sixteen keepers.
fn orders() -> impl Iterator<Item = Order> {
    Order::all().into_iter().filter(|order| order.n == 16)
}

/// Where some keepers stand among others.
#[derive(Clone, Copy)]
enum Place {
    First,
    Middle,
    Last,
    Anywhere,
}

const PLACES: [Place; 4] = [Place::First, Place::Middle, Place::Last, Place::Anywhere];

impl Place {
    /// So many of these keepers, and the others.
    fn part(self, keepers: &[u32], count: u32, random: &Random) -> (Vec<u32>, Vec<u32>) {
        let (all, count) = (keepers.len(), count as usize);
        let from = |start| (start..start + count).collect();
        let chosen: Vec<usize> = match self {
            Place::First => from(0),
            Place::Middle => from((all - count) / 2),
            Place::Last => from(all - count),
            Place::Anywhere => random.sample(all, count),
        };
        let chosen: Vec<u32> = chosen.into_iter().map(|index| keepers[index]).collect();
        keepers.iter().partition(|keeper| chosen.contains(keeper))
    }
}

/// Every count of usable letters, of which as many lie as are borne, and one more where that can be seen.
/// Letters are missing, and lie, at each place.
#[test]
fn gaps_and_liars_at_each_place() {
    let (random, mut counts) = (&Random::new(161), Counts::start());
    for order in orders() {
        for usable in order.fewest()..=order.n {
            for (gap, lie) in PLACES.iter().flat_map(|gap| PLACES.map(|lie| (gap, lie))) {
                let (absent, present) = gap.part(&all(order), order.n - usable, random);
                let borne = order.borne(usable);
                let most = if usable < order.differing() { borne } else { borne + 1 };
                for liars in borne..=most {
                    let (liars, _) = lie.part(&present, liars, random);
                    counts.same(&Made::cut(order, &absent, &liars, random));
                }
            }
        }
    }
    counts.tally.expect(7184, &[0, 7, 8]);
}

/// All letters are usable, and each set of at most f keepers lies in its turn. The count is greatest where
/// the first two lie, and eight of the others are to be found.
#[test]
fn every_set_of_liars() {
    let (random, mut counts) = (&Random::new(162), Counts::start());
    let mut greatest = 0;
    for order in orders() {
        for liars in (0..=order.f).flat_map(|count| subsets(16, count as usize)) {
            let liars: Vec<u32> = liars.into_iter().map(|index| index as u32 + 1).collect();
            let joined = counts.same(&Made::cut(order, &[], &liars, random));
            greatest = greatest.max(joined.trials);
        }
    }
    assert_eq!(greatest, 9_868);
    counts.tally.expect(1645, &[0, 8]);
}

/// Liars that agree with each other, on a whole cut of their own.
#[test]
fn two_cuts_in_one_tray() {
    let (random, mut counts) = (&Random::new(163), Counts::start());
    let orders: Vec<Order> =
        Order::all().into_iter().filter(|order| order.n >= order.differing()).collect();
    for place in PLACES.into_iter().cycle().take(600) {
        let order = *random.choose(&orders);
        let usable = random.between(order.differing(), order.n);
        let (absent, present) = Place::Anywhere.part(&all(order), order.n - usable, random);
        let liars = random.between(0, order.borne(usable) + 1);
        let (liars, agreeing) = place.part(&present, liars, random);
        let mut made = Made::cut(order, &absent, &[], random);
        let other = Tray::cut(made.tray.told, made.tray.stamp, made.tray.secret.len(), random);
        liars.iter().for_each(|&liar| exchange_slot(&mut made.tray.bytes, &other.bytes, liar));
        counts.same(&Made { agreeing, ..made });
    }
    counts.tally.expect(600, &[0, 7, 8]);
}

/// Sixteen letters of which none may lie, and one word of one is altered: all sets are counted.
#[test]
fn the_greatest_count() {
    let (random, mut counts) = (&Random::new(164), Counts::start());
    for liar in 1..=16 {
        let joined = counts.same(&Made::cut(Order::new(7, 0, 16), &[], &[liar], random));
        assert_eq!(joined.trials, MOST);
    }
    counts.tally.expect(16, &[7]);
}
