//! The program `csalgodes` from a secret to its letters, to the desks, to a tray and back, for every count of
//! keepers.

use second::cases;
use second::order::Order;
use second::random::Random;
use second::run::{each, told};
use second::scratch::Scratch;
use second::told::Told;

/// What happens in a day: a secret is cut under an order, with a stamp.
struct Day {
    told: Told,
    stamp: u32,
    secret: Vec<u8>,
}

impl Day {
    fn of(order: Order, random: &Random) -> Day {
        let secret = random.bytes(cases::length(random));
        Day { told: cases::told_of(order, random), stamp: cases::stamp(random), secret }
    }

    fn keepers(&self) -> Vec<String> {
        // as a shell lists names: 1 10 11 .. 2 3
        let mut keepers: Vec<String> =
            (1..=self.told.order.n).map(|keeper| keeper.to_string()).collect();
        keepers.sort();
        keepers
    }

    fn cut(&self, scratch: &Scratch) {
        scratch.write("secret", &self.secret);
        let Day { told: what, stamp, .. } = self;
        scratch.run(&format!("cut {} --stamp {stamp} secret letters", told(*what))).is_silent();
    }

    /// Whoever gets a letter sees what it is.
    fn show(&self, scratch: &Scratch, keeper: &str) {
        let Day { told: Told { order: Order { t, f, n }, key }, stamp, secret } = self;
        let head = format!("key {key} keeper {keeper} stamp {stamp} length {}", secret.len());
        let shown = scratch.run(&format!("show letters/{keeper}"));
        shown.writes(&format!("order {t},{f},{n} {head}\n"));
    }

    fn store(&self, scratch: &Scratch, keeper: &str) {
        let what = told(self.told);
        let store = format!("store {what} --keeper {keeper} desk-{keeper} letters/{keeper}");
        scratch.run(&store).is_silent();
    }

    fn fetch(&self, scratch: &Scratch, keeper: &str) {
        let fetch =
            format!("fetch {} --keeper {keeper} desk-{keeper} tray/{keeper}", told(self.told));
        scratch.run(&fetch).is_silent();
    }

    fn join(&self, scratch: &Scratch) {
        let ended = scratch.run(&format!("join {} tray joined", told(self.told)));
        assert_eq!((ended.status, ended.said().as_str()), (0, ""), "{ended:?}");
        assert!(scratch.read("joined") == self.secret);
    }

    fn play(&self) {
        let scratch = Scratch::new();
        self.cut(&scratch);
        self.show(&scratch, "2");
        self.keepers().iter().for_each(|keeper| self.store(&scratch, keeper));
        scratch.remove("letters");
        scratch.folder("tray");
        self.keepers().iter().for_each(|keeper| self.fetch(&scratch, keeper));
        self.join(&scratch);
    }
}

/// An order for each n from 2 to 16, of any t and f that are lawful with it.
#[test]
fn every_count_of_keepers() {
    let random = &Random::new(291);
    let mut days = Vec::new();
    for n in (2..=16).rev() {
        let mut orders = Order::all();
        orders.retain(|order| order.n == n);
        days.push(Day::of(*random.choose(&orders), random));
    }
    assert!(days.iter().any(|day| day.told.order.f > 0));
    each(&days, Day::play);
}

/// Two cuts of one key, of which the second is broken off: the desks hold what they took, and the newest
/// that joins comes back.
#[test]
fn a_cut_that_is_broken_off() {
    let random = &Random::new(292);
    let scratch = Scratch::new();
    let what = Told::new(Order::new(1, 1, 6), 3);
    let days = [1, 2].map(|stamp| Day { told: what, stamp, secret: random.bytes(40) });
    days[0].cut(&scratch);
    ["1", "2", "3", "4", "5", "6"].iter().for_each(|keeper| days[0].store(&scratch, keeper));
    scratch.remove("letters");
    days[1].cut(&scratch);
    ["1", "2"].iter().for_each(|keeper| days[1].store(&scratch, keeper));
    scratch.folder("tray");
    days[0].keepers().iter().for_each(|keeper| days[0].fetch(&scratch, keeper));
    let ended = scratch.run(&format!("join {} tray joined", told(what)));
    let line = |keeper| {
        format!("csalgodes: keeper {keeper} has a letter of stamp 2, newer than the one joined\n")
    };
    assert_eq!((ended.status, ended.said()), (0, line(1) + &line(2)), "{ended:?}");
    assert!(scratch.read("joined") == days[0].secret);
}
