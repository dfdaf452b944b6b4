//! The limits we hold ourselves to. They are of the library as compiled for any processor of the machine's
//! kind, beside the others compiled alike.

use crate::comparing::MEMCMP;
use crate::gfshare::LENT;
use crate::moving;
use crate::numbers::{ratio, time};
use crate::picking::{EIGHT_JOINS, JOIN};
use crate::programs::SECOND;
use crate::race::{Best, Race};
use crate::races::Races;

pub struct Limit {
    pub says: String,
    pub measured: String,
    pub met: bool,
}

pub fn limits(races: &Races) -> Vec<Limit> {
    let equal = races.equal.library();
    let (one, eight) = (&races.one_group, &races.eight_groups);
    let (again, weighing) = (&races.cutting_again, &races.weighing);
    vec![
        beside_second(1.5, "cut", &races.cut),
        less_than_gfshare(&races.cut),
        beside_second(2.0, "join, all letters good", &races.good),
        under(5, "join, three liars in the last word", &races.liars),
        under(20, "join, t=7, three liars, answer 7", &races.too_many),
        at_most(1.3, "pick, one sound group", one.library(), JOIN, one.of(JOIN)),
        no_more_than("pick, eight groups", eight.library(), EIGHT_JOINS, eight.of(EIGHT_JOINS)),
        at_most(1.2, "move, a letter cut", again.library(), moving::CUT, again.of(moving::CUT)),
        no_more_than(
            "move, sub-letters weighed",
            weighing.library(),
            moving::JOIN,
            weighing.of(moving::JOIN),
        ),
        at_most(3.0, "compare, equal trays", equal, MEMCMP, races.equal.of(MEMCMP)),
        beside_equal("compare, 100 words differ, over the whole tray", &races.spread, equal),
        beside_equal("compare, 100 words differ, in one slot", &races.one_slot, equal),
    ]
}

fn at_most(times: f64, work: &str, own: &Best, whom: &str, other: &Best) -> Limit {
    let found = own.times(other);
    let says = format!("{work}: at most {times} times {whom}");
    Limit { says, measured: format!("{} times", ratio(found)), met: found <= times }
}

fn no_more_than(work: &str, own: &Best, whom: &str, other: &Best) -> Limit {
    Limit { says: format!("{work}: no more than {whom}"), ..at_most(1.0, work, own, whom, other) }
}

fn beside_second(times: f64, work: &str, race: &Race) -> Limit {
    at_most(times, work, race.library(), "the second program", race.of(SECOND))
}

fn beside_equal(work: &str, race: &Race, equal: &Best) -> Limit {
    at_most(2.0, work, race.library(), "equal trays", equal)
}

fn less_than_gfshare(race: &Race) -> Limit {
    let (own, other) = (race.library().time, race.of(LENT).time);
    let measured = format!("{} against {}", time(own), time(other));
    Limit { says: "cut: less than gfshare, random bytes lent".into(), measured, met: own < other }
}

fn under(milliseconds: u32, work: &str, race: &Race) -> Limit {
    let found = race.library().time;
    let says = format!("{work}: under {milliseconds} ms");
    Limit { says, measured: time(found), met: found < f64::from(milliseconds) * 1e-3 }
}
