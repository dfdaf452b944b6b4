//! The pick as a side, by the library, and beside it the joins that it takes: those of the groups that the pick
//! goes through, one after the other, by the library too.

use std::hint::black_box;

use second::damage::{exchange_slot, lie, share, slot};
use second::join::{join, Joined};
use second::order::{Order, LONGEST};
use second::pick::{pick, Picked};
use second::random::Random;
use second::told::Told;

use crate::case::{cut, Case, KEY, STAMP};
use crate::programs::{programs, JoinCall, Names, PickCall, Program, LIBRARY};
use crate::race::{Side, Sides};

pub const JOIN: &str = "its join";
pub const EIGHT_JOINS: &str = "its eight joins";
const NAMES: Names = [JOIN, "its join for v3"];
const NAMES_OF_EIGHT: Names = [EIGHT_JOINS, "its eight joins for v3"];

const LENGTH: u32 = LONGEST as u32;

/// A tray, and its groups from the greatest stamp down. The last one joins, and no other.
pub struct Groups {
    told: Told,
    tray: Vec<u8>,
    groups: Vec<Group>,
    /// What the plain second program picks.
    picked: Picked,
    /// Those of the joins.
    names: Names,
}

/// A stamp, and what the plain second program's join answers and leaves of a room of ones.
#[derive(Clone, PartialEq)]
struct Group {
    stamp: u32,
    joined: Joined,
    room: Vec<u8>,
}

impl Groups {
    /// All letters are of one cut.
    pub fn one(case: &Case) -> Groups {
        Groups::of(case.told, case.tray.clone(), vec![STAMP], NAMES)
    }

    /// Eight cuts, stamps 1 to 8, and two letters of each, which always match. In all but the oldest the
    /// constant of the last byte is 256, so that only the oldest joins.
    pub fn eight(random: &Random) -> Groups {
        let told = Told::new(Order::new(1, 0, 16), KEY);
        let mut tray = vec![0; told.order.tray()];
        for stamp in 1..=8 {
            let (secret, words) = (random.bytes(LONGEST), random.words(LONGEST));
            let mut letters = cut(told, stamp, &secret, &words);
            for keeper in [stamp, stamp + 8] {
                if stamp > 1 {
                    make_constant_256(slot(&mut letters, keeper), secret[LONGEST - 1]);
                }
                exchange_slot(&mut tray, &letters, keeper);
            }
        }
        Groups::of(told, tray, (1..=8).rev().collect(), NAMES_OF_EIGHT)
    }

    fn of(told: Told, tray: Vec<u8>, stamps: Vec<u32>, names: Names) -> Groups {
        let group = |stamp| {
            let mut room = vec![1; LONGEST];
            let joined = join(told, stamp, LENGTH, &tray, &mut room);
            Group { stamp, joined, room }
        };
        let groups: Vec<_> = stamps.into_iter().map(group).collect();
        let picked = pick(told, &tray);
        Groups { told, tray, groups, picked, names }
    }

    /// The number of each group's join, and what is picked.
    pub fn answers(&self) -> (Vec<u32>, Picked) {
        (self.groups.iter().map(|group| group.joined.number).collect(), self.picked)
    }
}

/// Makes a letter's last share word that of a polynomial which differs in its constant alone.
fn make_constant_256(letter: &mut [u8], constant: u8) {
    let last = LONGEST - 1;
    lie(letter, last, (share(letter, last) + 256 - u32::from(constant)) % 257);
}

struct Pick<'a> {
    name: &'static str,
    call: PickCall,
    groups: &'a Groups,
    picked: Picked,
}

/// All joins of the groups, as one piece of work.
struct Joins<'a> {
    name: &'static str,
    call: JoinCall,
    groups: &'a Groups,
    done: Vec<Group>,
}

pub fn picks(groups: &Groups) -> Sides<'_> {
    let (mut sides, mut joins): (Sides, Sides) = (Vec::new(), Vec::new());
    for Program { name, join, pick, .. } in programs() {
        let Some(call) = pick else { continue };
        sides.push(Box::new(Pick { name, call, groups, picked: groups.picked }));
        let name = groups.names[usize::from(name != LIBRARY)];
        joins.push(Box::new(Joins { name, call: join, groups, done: groups.groups.clone() }));
    }
    sides.extend(joins);
    sides
}

impl Side for Pick<'_> {
    fn name(&self) -> &'static str {
        self.name
    }

    fn bytes(&self) -> usize {
        LONGEST
    }

    fn prepare(&mut self) {
        self.picked = Picked::default();
    }

    fn work(&mut self) {
        let Groups { told, tray, .. } = black_box(self.groups);
        self.picked = black_box((self.call)(*told, tray));
    }

    fn right(&mut self) -> bool {
        self.picked == self.groups.picked
    }
}

impl Side for Joins<'_> {
    fn name(&self) -> &'static str {
        self.name
    }

    fn bytes(&self) -> usize {
        LONGEST
    }

    fn prepare(&mut self) {
        for Group { joined, room, .. } in &mut self.done {
            *joined = Joined::default();
            room.fill(1);
        }
    }

    fn work(&mut self) {
        let Groups { told, tray, .. } = black_box(self.groups);
        for Group { stamp, joined, room } in black_box(&mut self.done) {
            *joined = (self.call)(*told, *stamp, LENGTH, tray, room);
        }
    }

    fn right(&mut self) -> bool {
        self.done == self.groups.groups
    }
}
