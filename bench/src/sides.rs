//! The cut, the join and the reading of letters as sides, by programs that are called alike.

use std::hint::black_box;

use second::join::Joined;
use second::letter::{Fault, Head, Letter};
use second::order::SLOT;

use crate::case::{Case, STAMP};
use crate::programs::{programs, CutCall, JoinCall, Names, Program, ReadCall};
use crate::race::{Side, Sides};

struct Cut<'a> {
    name: &'static str,
    call: CutCall,
    case: &'a Case,
    number: u32,
    tray: Vec<u8>,
}

pub fn cuts(case: &Case) -> Sides<'_> {
    programs().into_iter().map(|program| cutting(program.name, program, case)).collect()
}

/// The library's alone.
pub fn own_cuts(case: &Case, names: Names) -> Sides<'_> {
    own(names).map(|(name, program)| cutting(name, program, case)).collect()
}

fn cutting<'a>(name: &'static str, program: Program, case: &'a Case) -> Box<dyn Side + 'a> {
    Box::new(Cut { name, call: program.cut, case, number: 1, tray: case.tray.clone() })
}

/// The library as it is compiled for this processor and that, under these names.
fn own(names: Names) -> impl Iterator<Item = (&'static str, Program)> {
    names.into_iter().zip(programs().into_iter().filter(Program::is_library))
}

impl Side for Cut<'_> {
    fn name(&self) -> &'static str {
        self.name
    }

    fn bytes(&self) -> usize {
        self.case.secret.len()
    }

    fn prepare(&mut self) {
        self.tray.fill(1);
        self.number = 1;
    }

    fn work(&mut self) {
        let Case { told, secret, random, .. } = black_box(self.case);
        self.number = (self.call)(*told, STAMP, secret, random, black_box(&mut self.tray));
    }

    fn right(&mut self) -> bool {
        self.number == 0 && self.tray == self.case.tray
    }
}

struct Join<'a> {
    name: &'static str,
    call: JoinCall,
    case: &'a Case,
    joined: Joined,
    room: Vec<u8>,
}

pub fn joins(case: &Case) -> Sides<'_> {
    programs().into_iter().map(|program| joining(program.name, program, case)).collect()
}

/// The library's alone.
pub fn own_joins(case: &Case, names: Names) -> Sides<'_> {
    own(names).map(|(name, program)| joining(name, program, case)).collect()
}

fn joining<'a>(name: &'static str, program: Program, case: &'a Case) -> Box<dyn Side + 'a> {
    let (call, room) = (program.join, case.room.clone());
    Box::new(Join { name, call, case, joined: Joined::default(), room })
}

impl Side for Join<'_> {
    fn name(&self) -> &'static str {
        self.name
    }

    fn bytes(&self) -> usize {
        self.case.secret.len()
    }

    fn prepare(&mut self) {
        self.room.fill(1);
        self.joined = Joined::default();
    }

    fn work(&mut self) {
        let Case { told, secret, tray, .. } = black_box(self.case);
        let length = secret.len() as u32;
        self.joined = (self.call)(*told, STAMP, length, tray, black_box(&mut self.room));
    }

    fn right(&mut self) -> bool {
        self.joined == self.case.joined && self.room == self.case.room
    }
}

/// Reads each slot of a tray.
struct Read<'a> {
    name: &'static str,
    call: ReadCall,
    tray: &'a [u8],
    expected: Vec<Result<Head, Fault>>,
    heads: Vec<Result<Head, Fault>>,
}

pub fn reads(case: &Case) -> Sides<'_> {
    let tray = &case.tray;
    let plainly = |slot| Letter::read(slot).map(|letter| letter.head);
    let expected: Vec<_> = tray.chunks_exact(SLOT).map(plainly).collect();
    let side = |Program { name, read, .. }| -> Option<Box<dyn Side + '_>> {
        let (expected, heads) = (expected.clone(), expected.clone());
        Some(Box::new(Read { name, call: read?, tray, expected, heads }))
    };
    programs().into_iter().filter_map(side).collect()
}

impl Side for Read<'_> {
    fn name(&self) -> &'static str {
        self.name
    }

    fn bytes(&self) -> usize {
        self.tray.len()
    }

    fn prepare(&mut self) {
        self.heads.fill(Err(Fault { number: 0, place: 0 }));
    }

    fn work(&mut self) {
        let slots = black_box(self.tray).chunks_exact(SLOT);
        for (slot, head) in slots.zip(black_box(&mut self.heads)) {
            *head = (self.call)(slot);
        }
    }

    fn right(&mut self) -> bool {
        self.heads == self.expected
    }
}
