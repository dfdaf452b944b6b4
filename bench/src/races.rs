//! The races.

use second::order::{Order, LONGEST};
use second::pick::Picked;
use second::random::Random;

use crate::case::{Case, STAMP};
use crate::comparing::{by_memcmp, compares, Trays};
use crate::moving::{cuttings, weighings, Moving};
use crate::picking::{picks, Groups};
use crate::programs::LIBRARY_V3;
use crate::race::Race;
use crate::sealing::seals;
use crate::sides::{cuts, joins, reads};
use crate::{gfshare, ssss};

pub struct Races {
    pub cut: Race,
    pub good: Race,
    pub liars: Race,
    pub too_many: Race,
    pub one_group: Race,
    pub eight_groups: Race,
    pub cutting_again: Race,
    pub weighing: Race,
    pub reading: Race,
    pub sealing: Race,
    pub equal: Race,
    pub spread: Race,
    pub one_slot: Race,
}

impl Races {
    pub fn run() -> Races {
        let random = &Random::new(1);
        let order = Order::new(3, 3, 16);
        let good = Case::good(order, random);
        let liars = Case::three_liars(order, random);
        let too_many = Case::three_liars(Order::new(7, 2, 16), random);
        let found = [&good, &liars, &too_many].map(|case| (case.joined.number, case.joined.trials));
        assert_eq!(found, [(0, 1), (0, 1106), (7, 12870)]);

        let mut cuts = cuts(&good);
        cuts.extend([gfshare::split(&good), gfshare::split_and_draw(&good), ssss::split(&good)]);
        let mut good_joins = joins(&good);
        good_joins.extend([gfshare::combine(&good), ssss::combine(&good)]);
        let (one_group, eight_groups) = (Groups::one(&good), Groups::eight(random));
        assert_eq!(one_group.answers(), (vec![0], picked(STAMP)));
        assert_eq!(eight_groups.answers(), (vec![8, 8, 8, 8, 8, 8, 8, 0], picked(1)));
        let (moving, four) = (Moving::new(&good, random), Case::good(Order::new(3, 0, 4), random));
        let [equal, spread, one_slot] = comparisons(&good);
        Races {
            cut: Race::run("cut, t=3, f=3, n=16", cuts),
            good: Race::run("join, t=3, f=3, n=16, all letters good", good_joins),
            liars: Race::run("join, t=3, f=3, n=16, three liars", joins(&liars)),
            too_many: Race::run("join, t=7, f=2, n=16, three liars, answer 7", joins(&too_many)),
            one_group: Race::run("pick, t=3, f=3, n=16, one sound group", picks(&one_group)),
            eight_groups: Race::run(
                "pick, t=1, f=0, n=16, eight groups, the last joins",
                picks(&eight_groups),
            ),
            cutting_again: Race::run(
                "move, a letter cut for 16, t=3, f=3, n=16",
                cuttings(&moving, &good),
            ),
            weighing: Race::run(
                "move, four sub-letters weighed, t=3, f=3, n=16",
                weighings(&moving, &four),
            ),
            reading: Race::run("reading 16 letters, t=3, f=3, n=16", reads(&good)),
            sealing: Race::run("sealing one block", seals(&good)),
            equal,
            spread,
            one_slot,
        }
    }

    /// Whether the library as compiled for x86-64-v3 took part.
    pub fn have_v3(&self) -> bool {
        self.cut.libraries().any(|best| best.name == LIBRARY_V3)
    }

    pub fn all(&self) -> impl Iterator<Item = &Race> {
        let joined = [&self.good, &self.liars, &self.too_many];
        let picked = [&self.one_group, &self.eight_groups];
        let moved = [&self.cutting_again, &self.weighing];
        let alone = [&self.reading, &self.sealing];
        let compared = [&self.equal, &self.spread, &self.one_slot];
        [&self.cut]
            .into_iter()
            .chain(joined)
            .chain(picked)
            .chain(moved)
            .chain(alone)
            .chain(compared)
    }
}

fn picked(stamp: u32) -> Picked {
    Picked { number: 0, stamp, length: LONGEST as u32 }
}

fn comparisons(good: &Case) -> [Race; 3] {
    let equal = Trays::equal(good);
    let (spread, one_slot) = (Trays::spread(good), Trays::in_one_slot(good));
    let mut equal_sides = compares(&equal);
    equal_sides.push(by_memcmp(&equal));
    Race::run_together([
        ("compare, n=16, equal trays", equal_sides),
        ("compare, n=16, 100 words differ, over the whole tray", compares(&spread)),
        ("compare, n=16, 100 words differ, in one slot", compares(&one_slot)),
    ])
}
