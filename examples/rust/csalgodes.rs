//! Csalgodes for Rust: the calls that cut, pick, join, compare and move, with slices in and out.
//!
//! A slice is there and is never NULL, and one that may be written overlaps no other. That is all
//! the C header asks of a caller, so these calls are safe whatever they are given.

use std::fmt;

pub const SLOT: usize = 2048;

#[derive(Clone, Copy)]
pub struct Order {
    pub t: u32,
    pub f: u32,
    pub n: u32,
}

/// What to join. `csalgodes.h` has the meaning of each number.
#[repr(C)]
pub struct Picked {
    pub number: u32,
    pub stamp: u32,
    pub length: u32,
}

impl fmt::Display for Picked {
    fn fmt(&self, to: &mut fmt::Formatter) -> fmt::Result {
        write!(to, "number {}, stamp {}, length {}", self.number, self.stamp, self.length)
    }
}

/// What a join found.
#[repr(C)]
pub struct Found {
    pub number: u32,
    pub usable: u32,
    pub need: u32,
    pub set: u32,
    pub trials: u32,
}

impl Found {
    /// The keepers that match.
    pub fn keepers(&self) -> Vec<u32> {
        (1..=16).filter(|keeper| self.set >> (keeper - 1) & 1 == 1).collect()
    }
}

impl fmt::Display for Found {
    fn fmt(&self, to: &mut fmt::Formatter) -> fmt::Result {
        let Found { number, usable, need, trials, .. } = self;
        write!(to, "number {number}, usable {usable}, need {need}, trials {trials}")
    }
}

/// A place where two trays differ, and the word that each has there.
#[derive(Clone, Default)]
#[repr(C)]
pub struct Difference {
    pub slot: u16,
    pub block: u16,
    pub word: u16,
    pub first: u16,
    pub second: u16,
}

#[repr(C)]
struct Compared {
    number: u32,
    count: u32,
}

/// What both halves of a move are told.
#[derive(Clone, Copy)]
pub struct Move {
    pub old: Order,
    pub new: Order,
    pub key: u32,
    pub length: u32,
    pub stamp: u32,
}

/// What became of an old keeper's letter.
#[repr(C)]
pub struct CutAgain {
    pub number: u32,
    pub place: u32,
}

/// What became of a new keeper's sub-letters.
#[repr(C)]
pub struct Weighed {
    pub number: u32,
    pub letter: u32,
    pub place: u32,
}

#[link(name = "csalgodes", kind = "static")]
#[rustfmt::skip]
extern "C" {
    fn cs_cut(
        t: u32, f: u32, n: u32, key: u32, stamp: u32,
        secret: *const u8, secret_length: usize,
        random: *const u16, random_count: usize,
        tray: *mut u8, tray_length: usize,
    ) -> u32;

    fn cs_pick(
        t: u32, f: u32, n: u32, key: u32,
        tray: *const u8, tray_length: usize,
    ) -> Picked;

    fn cs_join(
        t: u32, f: u32, n: u32, key: u32, stamp: u32, length: u32,
        tray: *const u8, tray_length: usize,
        room: *mut u8, room_length: usize,
    ) -> Found;

    fn cs_compare(
        t: u32, f: u32, n: u32,
        first: *const u8, first_length: usize,
        second: *const u8, second_length: usize,
        list: *mut Difference, list_count: usize,
    ) -> Compared;

    fn cs_move_cut(
        old_t: u32, old_f: u32, old_n: u32, t: u32, f: u32, n: u32,
        key: u32, length: u32, stamp: u32, keeper: u32,
        letter: *const u8, letter_length: usize,
        random: *const u16, random_count: usize,
        tray: *mut u8, tray_length: usize,
    ) -> CutAgain;

    fn cs_move_weigh(
        old_t: u32, old_f: u32, old_n: u32, t: u32, f: u32, n: u32,
        key: u32, length: u32, stamp: u32,
        keepers: *const u32, keepers_count: usize, keeper: u32,
        letters: *const u8, letters_length: usize,
        slot: *mut u8, slot_length: usize,
    ) -> Weighed;
}

/// Cuts a secret into the tray, its key's number in every letter, or gives the number of the refusal.
pub fn cut(
    Order { t, f, n }: Order,
    key: u32,
    stamp: u32,
    secret: &[u8],
    random: &[u16],
    tray: &mut [u8],
) -> Result<(), u32> {
    let (bytes, length) = (secret.as_ptr(), secret.len());
    let (words, count) = (random.as_ptr(), random.len());
    let (slots, size) = (tray.as_mut_ptr(), tray.len());
    match unsafe { cs_cut(t, f, n, key, stamp, bytes, length, words, count, slots, size) } {
        0 => Ok(()),
        number => Err(number),
    }
}

/// Which stamp and length of this key's letters to join. A refusal has them too where there are enough
/// such letters and they do not join.
pub fn pick(Order { t, f, n }: Order, key: u32, tray: &[u8]) -> Result<Picked, Picked> {
    match unsafe { cs_pick(t, f, n, key, tray.as_ptr(), tray.len()) } {
        picked if picked.number == 0 => Ok(picked),
        refusal => Err(refusal),
    }
}

/// Joins this key's letters to a secret as long as the room, and writes it there. A refusal leaves the
/// room as it was.
pub fn join(
    Order { t, f, n }: Order,
    key: u32,
    stamp: u32,
    tray: &[u8],
    room: &mut [u8],
) -> Result<Found, Found> {
    // any length above 952 is refused alike
    let length = u32::try_from(room.len()).unwrap_or(u32::MAX);
    let (slots, size) = (tray.as_ptr(), tray.len());
    let (to, space) = (room.as_mut_ptr(), room.len());
    match unsafe { cs_join(t, f, n, key, stamp, length, slots, size, to, space) } {
        found if found.number == 0 => Ok(found),
        refusal => Err(refusal),
    }
}

/// Every place where two trays differ, in rising order, or the number of the refusal.
pub fn compare(
    Order { t, f, n }: Order,
    first: &[u8],
    second: &[u8],
) -> Result<Vec<Difference>, u32> {
    // a place for every word of a tray, so that it is never too short
    let mut list = vec![Difference::default(); first.len() / 2];
    let (one, one_length) = (first.as_ptr(), first.len());
    let (other, other_length) = (second.as_ptr(), second.len());
    let (places, count) = (list.as_mut_ptr(), list.len());
    match unsafe { cs_compare(t, f, n, one, one_length, other, other_length, places, count) } {
        Compared { number: 0, count } => {
            list.truncate(count as usize);
            Ok(list)
        }
        Compared { number, .. } => Err(number),
    }
}

/// Cuts an old keeper's letter again: the tray gets a sub-letter for each new keeper.
#[rustfmt::skip]
pub fn move_cut(
    Move { old, new, key, length, stamp }: Move,
    keeper: u32,
    letter: &[u8],
    random: &[u16],
    tray: &mut [u8],
) -> Result<(), CutAgain> {
    match unsafe {
        cs_move_cut(
            old.t, old.f, old.n, new.t, new.f, new.n, key, length, stamp, keeper,
            letter.as_ptr(), letter.len(),
            random.as_ptr(), random.len(),
            tray.as_mut_ptr(), tray.len(),
        )
    } {
        CutAgain { number: 0, .. } => Ok(()),
        refusal => Err(refusal),
    }
}

/// Weighs a new keeper's sub-letters, one of each of these old keepers, into its letter.
#[rustfmt::skip]
pub fn move_weigh(
    Move { old, new, key, length, stamp }: Move,
    keepers: &[u32],
    keeper: u32,
    letters: &[u8],
    slot: &mut [u8],
) -> Result<(), Weighed> {
    match unsafe {
        cs_move_weigh(
            old.t, old.f, old.n, new.t, new.f, new.n, key, length, stamp,
            keepers.as_ptr(), keepers.len(), keeper,
            letters.as_ptr(), letters.len(),
            slot.as_mut_ptr(), slot.len(),
        )
    } {
        Weighed { number: 0, .. } => Ok(()),
        refusal => Err(refusal),
    }
}
