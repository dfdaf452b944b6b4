//! The comparison of two trays as a side, by the library, and of equal trays also by memcmp, which is the
//! least that any comparison takes.

use std::ffi::{c_int, c_void};
use std::hint::black_box;

use second::order::{Order, SLOT};

use crate::case::Case;
use crate::library::{Compared, Difference};
use crate::programs::{programs, CompareCall, Program};
use crate::race::{Side, Sides};

pub const MEMCMP: &str = "memcmp";

const DIFFERENCES: usize = 100;
const BLOCK: usize = 512;
/// What the list is filled with, which is no place of a tray.
const SPOILED: Difference =
    Difference { slot: u16::MAX, block: u16::MAX, word: u16::MAX, first: 1, second: 1 };

/// Two trays, and where they differ.
pub struct Trays {
    order: Order,
    first: Vec<u8>,
    second: Vec<u8>,
    differences: Vec<Difference>,
}

impl Trays {
    pub fn equal(case: &Case) -> Trays {
        let (first, second) = (case.tray.clone(), case.tray.clone());
        Trays { order: case.told.order, first, second, differences: Vec::new() }
    }

    /// A hundred words differ, as far from each other over the whole tray as they can be.
    pub fn spread(case: &Case) -> Trays {
        Trays::differing(case, 0, case.tray.len())
    }

    /// A hundred words differ, all in the eighth slot.
    pub fn in_one_slot(case: &Case) -> Trays {
        Trays::differing(case, 7 * SLOT, SLOT)
    }

    /// Changes one bit of each such word, now in its high byte, now in its low one.
    fn differing(case: &Case, start: usize, bytes: usize) -> Trays {
        let mut trays = Trays::equal(case);
        for i in 0..DIFFERENCES {
            let at = start + i * (bytes / 2) / DIFFERENCES * 2;
            trays.second[at + i % 2] ^= 1 << (i % 8);
            trays.differences.push(trays.at(at));
        }
        trays
    }

    fn at(&self, at: usize) -> Difference {
        let word = |tray: &[u8]| u16::from_be_bytes([tray[at], tray[at + 1]]);
        Difference {
            slot: (at / SLOT + 1) as u16,
            block: (at % SLOT / BLOCK) as u16,
            word: (at % BLOCK / 2) as u16,
            first: word(&self.first),
            second: word(&self.second),
        }
    }
}

struct Compare<'a> {
    name: &'static str,
    call: CompareCall,
    trays: &'a Trays,
    compared: Compared,
    list: Vec<Difference>,
}

/// The list has a place for every word of a tray.
pub fn compares(trays: &Trays) -> Sides<'_> {
    let list = vec![SPOILED; trays.first.len() / 2];
    let side = |Program { name, compare, .. }| -> Option<Box<dyn Side + '_>> {
        let (compared, list) = (Compared::default(), list.clone());
        Some(Box::new(Compare { name, call: compare?, trays, compared, list }))
    };
    programs().into_iter().filter_map(side).collect()
}

impl Side for Compare<'_> {
    fn name(&self) -> &'static str {
        self.name
    }

    fn bytes(&self) -> usize {
        self.trays.first.len()
    }

    fn prepare(&mut self) {
        self.list.fill(SPOILED);
        self.compared = Compared { number: 1, count: 0 };
    }

    fn work(&mut self) {
        let Trays { order, first, second, .. } = black_box(self.trays);
        self.compared = (self.call)(*order, first, second, black_box(&mut self.list));
    }

    fn right(&mut self) -> bool {
        let expected = &self.trays.differences;
        let (written, rest) = self.list.split_at(expected.len());
        self.compared == Compared { number: 0, count: expected.len() as u32 }
            && written == expected
            && rest.iter().all(|place| *place == SPOILED)
    }
}

extern "C" {
    fn memcmp(first: *const c_void, second: *const c_void, count: usize) -> c_int;
}

struct Memcmp<'a> {
    trays: &'a Trays,
    answer: c_int,
}

/// The C library's own, as it is for this processor.
pub fn by_memcmp(trays: &Trays) -> Box<dyn Side + '_> {
    Box::new(Memcmp { trays, answer: 0 })
}

impl Side for Memcmp<'_> {
    fn name(&self) -> &'static str {
        MEMCMP
    }

    fn bytes(&self) -> usize {
        self.trays.first.len()
    }

    fn prepare(&mut self) {
        self.answer = 1;
    }

    fn work(&mut self) {
        let Trays { first, second, .. } = black_box(self.trays);
        // called where the compiler cannot see which function it is, so that it is really called
        let call: unsafe extern "C" fn(_, _, _) -> _ = black_box(memcmp);
        // SAFETY: both trays have this many bytes.
        self.answer = unsafe { call(first.as_ptr().cast(), second.as_ptr().cast(), first.len()) };
    }

    fn right(&mut self) -> bool {
        self.answer == 0
    }
}
