//! Both halves of a move as sides, by the library: the cutting of a letter, beside a cut of as many bytes, and
//! the weighing of sub-letters, beside a join of as many letters, by the library too.

use std::hint::black_box;

use second::moving::{CutAgain, Move, Weighed};
use second::order::{LONGEST, SLOT};
use second::random::Random;

use crate::case::{Case, STAMP};
use crate::programs::{programs, MoveCutCall, MoveWeighCall, Names, Program};
use crate::race::{Side, Sides};
use crate::sides::{own_cuts, own_joins};

pub const CUT: &str = "a cut of as many bytes";
pub const JOIN: &str = "a join of four letters";
const CUT_NAMES: Names = [CUT, "a cut of as many bytes for v3"];
const JOIN_NAMES: Names = [JOIN, "a join of four letters for v3"];

/// Of t=3. The first is the one whose cutting is raced.
const OLD_KEEPERS: [u32; 4] = [2, 5, 11, 16];
/// The one whose weighing is raced.
const NEW_KEEPER: u32 = 7;

const CUT_WELL: CutAgain = CutAgain { number: 0, place: 0 };
const WEIGHED_WELL: Weighed = Weighed { number: 0, letter: 0, place: 0 };

/// A move of a tray to its own order, with what the plain second program makes of it.
pub struct Moving {
    told: Move,
    letter: Vec<u8>,
    random: Vec<u16>,
    /// The sub-letters of the first old keeper.
    tray: Vec<u8>,
    /// Those that the new keeper gets.
    letters: Vec<u8>,
    /// Its letter.
    moved: Vec<u8>,
}

impl Moving {
    pub fn new(case: &Case, random: &Random) -> Moving {
        let told =
            Move { old: case.told.order, new: case.told, length: LONGEST as u32, stamp: STAMP + 1 };
        let words = || random.words(LONGEST * told.new.order.t as usize);
        let cut = |keeper, random: &[u16]| cut(told, keeper, slot(&case.tray, keeper), random);
        let [first, others @ ..] = OLD_KEEPERS;
        let random = words();
        let tray = cut(first, &random);
        let mut letters = slot(&tray, NEW_KEEPER).to_vec();
        for keeper in others {
            letters.extend_from_slice(slot(&cut(keeper, &words()), NEW_KEEPER));
        }
        let letter = slot(&case.tray, first).to_vec();
        let moved = weigh(told, &letters);
        Moving { told, letter, random, tray, letters, moved }
    }
}

/// The sub-letters of an old keeper.
fn cut(told: Move, keeper: u32, letter: &[u8], random: &[u16]) -> Vec<u8> {
    let mut tray = vec![0; told.new.order.tray()];
    assert_eq!(told.cut(keeper, letter, random, &mut tray), CUT_WELL);
    tray
}

/// The letter of the new keeper.
fn weigh(told: Move, letters: &[u8]) -> Vec<u8> {
    let mut letter = vec![0; SLOT];
    assert_eq!(told.weigh(&OLD_KEEPERS, NEW_KEEPER, letters, &mut letter), WEIGHED_WELL);
    letter
}

/// The slot of a keeper in a tray.
fn slot(tray: &[u8], keeper: u32) -> &[u8] {
    &tray[(keeper as usize - 1) * SLOT..][..SLOT]
}

/// The cutting of a letter, and the cut of this case.
pub fn cuttings<'a>(moving: &'a Moving, case: &'a Case) -> Sides<'a> {
    let side = |Program { name, move_cut, .. }| -> Option<Box<dyn Side + 'a>> {
        let tray = moving.tray.clone();
        Some(Box::new(Cutting { name, call: move_cut?, moving, answer: CUT_WELL, tray }))
    };
    let mut sides: Sides = programs().into_iter().filter_map(side).collect();
    sides.extend(own_cuts(case, CUT_NAMES));
    sides
}

/// The weighing of sub-letters, and the join of this case.
pub fn weighings<'a>(moving: &'a Moving, case: &'a Case) -> Sides<'a> {
    let side = |Program { name, move_weigh, .. }| -> Option<Box<dyn Side + 'a>> {
        let moved = moving.moved.clone();
        Some(Box::new(Weighing { name, call: move_weigh?, moving, answer: WEIGHED_WELL, moved }))
    };
    let mut sides: Sides = programs().into_iter().filter_map(side).collect();
    sides.extend(own_joins(case, JOIN_NAMES));
    sides
}

struct Cutting<'a> {
    name: &'static str,
    call: MoveCutCall,
    moving: &'a Moving,
    answer: CutAgain,
    tray: Vec<u8>,
}

impl Side for Cutting<'_> {
    fn name(&self) -> &'static str {
        self.name
    }

    fn bytes(&self) -> usize {
        LONGEST
    }

    fn prepare(&mut self) {
        self.answer = CutAgain { number: 1, place: 1 };
        self.tray.fill(1);
    }

    fn work(&mut self) {
        let Moving { told, letter, random, .. } = black_box(self.moving);
        let tray = black_box(&mut self.tray);
        self.answer = (self.call)(*told, OLD_KEEPERS[0], letter, random, tray);
    }

    fn right(&mut self) -> bool {
        self.answer == CUT_WELL && self.tray == self.moving.tray
    }
}

struct Weighing<'a> {
    name: &'static str,
    call: MoveWeighCall,
    moving: &'a Moving,
    answer: Weighed,
    moved: Vec<u8>,
}

impl Side for Weighing<'_> {
    fn name(&self) -> &'static str {
        self.name
    }

    fn bytes(&self) -> usize {
        LONGEST
    }

    fn prepare(&mut self) {
        self.answer = Weighed { number: 1, letter: 1, place: 1 };
        self.moved.fill(1);
    }

    fn work(&mut self) {
        let Moving { told, letters, .. } = black_box(self.moving);
        let moved = black_box(&mut self.moved);
        self.answer = (self.call)(*told, &OLD_KEEPERS, NEW_KEEPER, letters, moved);
    }

    fn right(&mut self) -> bool {
        self.answer == WEIGHED_WELL && self.moved == self.moving.moved
    }
}
