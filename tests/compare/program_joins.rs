//! The join of the program `csalgodes`, beside the program `report` and the second program.

use std::io::Write;
use std::process::Stdio;
use std::sync::Mutex;

use second::cases::{self, Tray};
use second::damage::{exchange_slot, slot};
use second::groups::Groups;
use second::join::{join, Joined};
use second::letter::Letter;
use second::order::{Order, SLOT};
use second::peer::program;
use second::pick::{pick, Picked};
use second::random::Random;
use second::report::report_of;
use second::run::{each, told, Ended};
use second::scratch::Scratch;
use second::tally::Tally;
use second::told::Told;

/// A tray, and what it is of.
struct Case {
    told: Told,
    tray: Vec<u8>,
}

impl Case {
    /// What the program `report` writes of it.
    fn report(&self) -> String {
        let Told { order: Order { t, f, n }, key } = self.told;
        let front = [t, f, n, key].map(|number| number as u8);
        let mut process = program("programs/report")
            .stdin(Stdio::piped())
            .stdout(Stdio::piped())
            .spawn()
            .expect("the gate builds the report and what runs it");
        let mut pipe = process.stdin.take().expect("it was asked for");
        pipe.write_all(&[&front, self.tray.as_slice()].concat()).expect("it reads all of it");
        drop(pipe);
        let output = process.wait_with_output().expect("the program ends");
        String::from_utf8(output.stdout).expect("the report is text")
    }

    /// What the second program joins of a stamp and length, and the secret.
    fn join(&self, stamp: u32, length: u32) -> (Joined, Vec<u8>) {
        let mut secret = vec![0; length as usize];
        (join(self.told, stamp, length, &self.tray, &mut secret), secret)
    }

    /// The lines on letters of a greater stamp.
    fn newer(&self, stamp: u32) -> String {
        let mut lines = String::new();
        for (slot, keeper) in self.tray.chunks(SLOT).zip(1..) {
            match Letter::read(slot) {
                Ok(Letter { head, .. })
                    if head.told == self.told && head.keeper == keeper && head.stamp > stamp =>
                {
                    let newer = head.stamp;
                    lines += &format!(
                        "csalgodes: keeper {keeper} has a letter of stamp {newer}, newer than the one joined\n"
                    );
                }
                _ => {}
            }
        }
        lines
    }

    /// Holds a join to what the second program says of this stamp and length. Where nothing was joined,
    /// nothing is newer than it.
    fn is_right(&self, scratch: &Scratch, ended: &Ended, stamp: u32, length: u32) -> u32 {
        let (joined, secret) = self.join(stamp, length);
        let lines = report_of(self.told, stamp, length, &self.tray);
        let trials = match joined.number {
            0 | 7 | 8 => format!("trials {}\n", joined.trials),
            _ => String::new(),
        };
        assert_eq!(ended.wrote(), lines + &trials, "{ended:?}");
        if joined.number == 0 {
            assert_eq!((ended.status, ended.said()), (0, self.newer(stamp)), "{ended:?}");
            assert!(scratch.read("joined") == secret, "{ended:?}");
            scratch.remove("joined");
        } else {
            ended.answers(joined.number);
        }
        scratch.holds(&["tray"]);
        joined.number
    }

    /// The join without a stamp, which is the pick's, beside the report.
    fn joins_what_is_picked(&self) -> u32 {
        let scratch = Scratch::new();
        scratch.tray("tray", &self.tray);
        let ended = scratch.run(&format!("join {} tray joined", told(self.told)));
        let report = self.report();
        let written = ended.wrote();
        let front = written.lines().take(report.lines().count()).map(|line| format!("{line}\n"));
        assert_eq!(front.collect::<String>(), report, "{ended:?}");
        let Picked { number, stamp, length } = pick(self.told, &self.tray);
        if [0, 7, 8].contains(&number) {
            return self.is_right(&scratch, &ended, stamp, length);
        }
        ended.answers(number);
        assert_eq!(ended.wrote(), format!("answer {number}\n"), "{ended:?}");
        scratch.holds(&["tray"]);
        number
    }

    /// The join of a given stamp and length.
    fn joins_what_is_told(&self, stamp: u32, length: u32) -> u32 {
        let scratch = Scratch::new();
        scratch.tray("tray", &self.tray);
        let words = told(self.told);
        let ended =
            scratch.run(&format!("join {words} --stamp {stamp} --length {length} tray joined"));
        self.is_right(&scratch, &ended, stamp, length)
    }

    /// Each stamp and length that a letter of it has.
    fn groups(&self) -> Vec<(u32, u32)> {
        let heads = self.tray.chunks(SLOT).filter_map(|slot| Letter::read(slot).ok());
        let mut groups: Vec<_> =
            heads.map(|letter| (letter.head.stamp, letter.head.length)).collect();
        groups.sort();
        groups.dedup();
        groups
    }
}

/// A tray of one cut with liars, damage and empty slots.
fn damaged(random: &Random) -> Case {
    let told = cases::told(random);
    let mut tray = Tray::cut(told, cases::stamp(random), 1 + random.below(80), random);
    for keeper in 1..=told.order.n {
        match random.below(10) {
            0 => tray.add_to(keeper, 0, random.between(1, 256)),
            1 => slot(&mut tray.bytes, keeper).fill(0),
            2 => slot(&mut tray.bytes, keeper)[random.below(2048)] ^= 1,
            _ => {}
        }
    }
    Case { told, tray: tray.bytes }
}

/// A tray of two cuts, which may have one stamp.
fn of_two_cuts(random: &Random) -> Case {
    let told = cases::told(random);
    let mut tray = Tray::cut(told, 40, 1 + random.below(80), random);
    let other = Tray::cut(told, random.between(39, 41), 1 + random.below(80), random);
    for keeper in 1..=told.order.n {
        if random.once_in(3) {
            exchange_slot(&mut tray.bytes, &other.bytes, keeper);
        }
    }
    Case { told, tray: tray.bytes }
}

/// A tray of two or three groups that join or do not.
fn of_groups(random: &Random) -> Case {
    let told = cases::told_of(Order::new(1, random.between(0, 1), 16), random);
    let count = 2 + random.below(2);
    let groups = Groups::first_joins(told, count, random.below(count + 1), random);
    Case { told, tray: groups.tray(random) }
}

/// A tray of which no group joins, and the greatest has this number; of too few letters it is 6.
fn that_does_not_join(number: u32, random: &Random) -> Case {
    let told = cases::told_of(Order::new(2, 1, 12), random);
    Case { told, tray: Groups::large(told, &[number, number], random).tray(random) }
}

/// How often each number came out, a few jobs at a time.
fn of_each<One: Sync>(all: &[One], job: impl Fn(&One) -> u32 + Sync) -> Tally {
    let tally = Mutex::new(Tally::default());
    each(all, |one| {
        let number = job(one);
        tally.lock().expect("no job failed").add(number);
    });
    tally.into_inner().expect("no job failed")
}

#[test]
fn beside_the_report() {
    let random = &Random::new(281);
    let mut all = Vec::new();
    for _ in 0..10 {
        all.extend([damaged(random), of_two_cuts(random), of_groups(random)]);
    }
    all.extend([6, 7, 8].map(|number| that_does_not_join(number, random)));
    of_each(&all, Case::joins_what_is_picked).expect(33, &[0, 6, 7, 8]);
}

/// Told a stamp and a length, a join takes those, even if there are newer ones that would join.
#[test]
fn of_a_stamp_and_length() {
    let random = &Random::new(282);
    let mut all = Vec::new();
    for _ in 0..8 {
        all.extend([of_two_cuts(random), of_groups(random)]);
    }
    all.extend([6, 7, 8].map(|number| that_does_not_join(number, random)));
    let asked: Vec<(&Case, (u32, u32))> = all
        .iter()
        .flat_map(|case| case.groups().into_iter().map(move |group| (case, group)))
        .collect();
    let joins = |&(case, (stamp, length)): &(&Case, _)| case.joins_what_is_told(stamp, length);
    of_each(&asked, joins).expect(30, &[0, 6, 7, 8]);
}

/// A letter of the same order and key that is newer has its line; one of another key, another order or in
/// another keeper's slot has none, and neither has a damaged one.
#[test]
fn newer_letters() {
    let random = &Random::new(283);
    let told = Told::new(Order::new(1, 1, 10), 7);
    let mut tray = Tray::cut(told, 40, 30, random).bytes;
    let other = |told: Told, stamp: u32| Tray::cut(told, stamp, 30, random).bytes;
    let newer = other(told, 90);
    exchange_slot(&mut tray, &newer, 2);
    exchange_slot(&mut tray, &other(Told { key: 8, ..told }, 90), 3);
    exchange_slot(&mut tray, &other(Told::new(Order::new(1, 0, 10), 7), 90), 4);
    slot(&mut tray, 5).copy_from_slice(&newer[8 * SLOT..9 * SLOT]);
    exchange_slot(&mut tray, &newer, 6);
    slot(&mut tray, 6)[100] ^= 1;
    exchange_slot(&mut tray, &other(told, 39), 7);
    let case = Case { told, tray };
    let expected = "csalgodes: keeper 2 has a letter of stamp 90, newer than the one joined\n";
    assert_eq!(case.newer(40), expected);
    assert_eq!(case.joins_what_is_picked(), 0);

    // where the secret goes to standard output, the lines stand on standard error
    let scratch = Scratch::new();
    scratch.tray("tray", &case.tray);
    let ended = scratch.run(&format!("join {} tray -", second::run::told(told)));
    let (joined, secret) = case.join(40, 30);
    assert!(ended.status == 0 && ended.text == secret, "{ended:?}");
    let said = ended.said();
    let lines = format!("{}trials {}\n", report_of(told, 40, 30, &case.tray), joined.trials);
    assert!(said.contains(&lines) && said.contains(expected), "{ended:?}");
    assert_eq!(said.len(), lines.len() + expected.len(), "{ended:?}");
}
