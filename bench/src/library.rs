//! The proved library's calls, with the second program's types, so that both are called alike: as it is
//! compiled for any processor, and on x86-64 also as it is compiled for x86-64-v3.

use std::mem::{size_of, MaybeUninit};

use second::block::BLOCK;
use second::join::Joined;
use second::letter::{Fault, Head};
use second::moving::{CutAgain, Move, Weighed};
use second::order::Order;
use second::pick::Picked;
use second::told::Told;

#[repr(C)]
struct JoinResult {
    number: u32,
    usable: u32,
    need: u32,
    set: u32,
    trials: u32,
}

#[repr(C)]
struct PickResult {
    number: u32,
    stamp: u32,
    length: u32,
}

#[repr(C)]
struct ReadResult {
    number: u32,
    place: u32,
    t: u32,
    f: u32,
    n: u32,
    key: u32,
    keeper: u32,
    stamp: u32,
    length: u32,
}

#[repr(C)]
struct MoveCutResult {
    number: u32,
    place: u32,
}

#[repr(C)]
struct MoveWeighResult {
    number: u32,
    letter: u32,
    place: u32,
}

/// What a comparison found.
#[derive(Clone, Default, PartialEq)]
#[repr(C)]
pub struct Compared {
    pub number: u32,
    pub count: u32,
}

/// A place where two trays differ, and the word that each has there.
#[derive(Clone, Copy, PartialEq)]
#[repr(C)]
pub struct Difference {
    pub slot: u16,
    pub block: u16,
    pub word: u16,
    pub first: u16,
    pub second: u16,
}

impl From<JoinResult> for Joined {
    fn from(result: JoinResult) -> Joined {
        let JoinResult { number, usable, need, set, trials } = result;
        Joined { number, usable, need, set, trials }
    }
}

impl From<PickResult> for Picked {
    fn from(result: PickResult) -> Picked {
        let PickResult { number, stamp, length } = result;
        Picked { number, stamp, length }
    }
}

impl From<MoveCutResult> for CutAgain {
    fn from(result: MoveCutResult) -> CutAgain {
        let MoveCutResult { number, place } = result;
        CutAgain { number, place }
    }
}

impl From<MoveWeighResult> for Weighed {
    fn from(result: MoveWeighResult) -> Weighed {
        let MoveWeighResult { number, letter, place } = result;
        Weighed { number, letter, place }
    }
}

impl From<ReadResult> for Result<Head, Fault> {
    fn from(result: ReadResult) -> Result<Head, Fault> {
        let ReadResult { number, place, t, f, n, key, keeper, stamp, length } = result;
        match number {
            0 => Ok(Head { told: Told::new(Order::new(t, f, n), key), keeper, stamp, length }),
            _ => Err(Fault { number, place }),
        }
    }
}

/// The longest result that is returned alike on all machines.
const LONGEST_RETURNED: usize = 16;
const _: () = {
    assert!(size_of::<PickResult>() <= LONGEST_RETURNED);
    assert!(size_of::<Compared>() <= LONGEST_RETURNED);
    assert!(size_of::<MoveCutResult>() <= LONGEST_RETURNED);
    assert!(size_of::<MoveWeighResult>() <= LONGEST_RETURNED);
    assert!(size_of::<JoinResult>() > LONGEST_RETURNED);
    assert!(size_of::<ReadResult>() > LONGEST_RETURNED);
};

/// A longer result. Its place is handed over first, and comes back. On x86-64 that is C's own way with so long
/// a result; elsewhere it is the module's alone.
///
/// # Safety
///
/// The call must write all of the result.
unsafe fn placed<T>(call: impl FnOnce(*mut T) -> *mut T) -> T {
    let mut result = MaybeUninit::uninit();
    call(result.as_mut_ptr());
    result.assume_init()
}

macro_rules! calls {
    (
        $library:ident,
        $cut:literal,
        $pick:literal,
        $join:literal,
        $read:literal,
        $compare:literal,
        $move_cut:literal,
        $move_weigh:literal,
        $seal:literal
    ) => {
        pub mod $library {
            use super::*;

            extern "C" {
                #[link_name = $cut]
                fn cs_cut(
                    t: u32,
                    f: u32,
                    n: u32,
                    key: u32,
                    stamp: u32,
                    secret: *const u8,
                    secret_length: usize,
                    random: *const u16,
                    random_count: usize,
                    tray: *mut u8,
                    tray_length: usize,
                ) -> u32;

                #[link_name = $pick]
                fn cs_pick(
                    t: u32,
                    f: u32,
                    n: u32,
                    key: u32,
                    tray: *const u8,
                    tray_length: usize,
                ) -> PickResult;

                #[link_name = $join]
                fn cs_join(
                    result: *mut JoinResult,
                    t: u32,
                    f: u32,
                    n: u32,
                    key: u32,
                    stamp: u32,
                    length: u32,
                    tray: *const u8,
                    tray_length: usize,
                    room: *mut u8,
                    room_length: usize,
                ) -> *mut JoinResult;

                #[link_name = $read]
                fn cs_read(
                    result: *mut ReadResult,
                    slot: *const u8,
                    slot_length: usize,
                ) -> *mut ReadResult;

                #[link_name = $compare]
                fn cs_compare(
                    t: u32,
                    f: u32,
                    n: u32,
                    first: *const u8,
                    first_length: usize,
                    second: *const u8,
                    second_length: usize,
                    list: *mut Difference,
                    list_count: usize,
                ) -> Compared;

                #[link_name = $move_cut]
                fn cs_move_cut(
                    old_t: u32,
                    old_f: u32,
                    old_n: u32,
                    t: u32,
                    f: u32,
                    n: u32,
                    key: u32,
                    length: u32,
                    stamp: u32,
                    keeper: u32,
                    letter: *const u8,
                    letter_length: usize,
                    random: *const u16,
                    random_count: usize,
                    tray: *mut u8,
                    tray_length: usize,
                ) -> MoveCutResult;

                #[link_name = $move_weigh]
                fn cs_move_weigh(
                    old_t: u32,
                    old_f: u32,
                    old_n: u32,
                    t: u32,
                    f: u32,
                    n: u32,
                    key: u32,
                    length: u32,
                    stamp: u32,
                    keepers: *const u32,
                    keepers_count: usize,
                    keeper: u32,
                    letters: *const u8,
                    letters_length: usize,
                    slot: *mut u8,
                    slot_length: usize,
                ) -> MoveWeighResult;

                /// No public call. The block must have 512 bytes.
                #[link_name = $seal]
                fn block_check_seal(block: *mut u8, count: usize);
            }

            pub fn cut(
                Told { order: Order { t, f, n }, key }: Told,
                stamp: u32,
                secret: &[u8],
                random: &[u16],
                tray: &mut [u8],
            ) -> u32 {
                let (secret, secret_length) = (secret.as_ptr(), secret.len());
                let (random, random_count) = (random.as_ptr(), random.len());
                let (tray, tray_length) = (tray.as_mut_ptr(), tray.len());
                // SAFETY: each pointer comes with the number of elements behind it, and none overlap.
                unsafe {
                    cs_cut(
                        t,
                        f,
                        n,
                        key,
                        stamp,
                        secret,
                        secret_length,
                        random,
                        random_count,
                        tray,
                        tray_length,
                    )
                }
            }

            pub fn pick(Told { order: Order { t, f, n }, key }: Told, tray: &[u8]) -> Picked {
                // SAFETY: as in the cut.
                unsafe { cs_pick(t, f, n, key, tray.as_ptr(), tray.len()) }.into()
            }

            pub fn join(
                Told { order: Order { t, f, n }, key }: Told,
                stamp: u32,
                length: u32,
                tray: &[u8],
                room: &mut [u8],
            ) -> Joined {
                let (tray, tray_length) = (tray.as_ptr(), tray.len());
                let (room, room_length) = (room.as_mut_ptr(), room.len());
                // SAFETY: as in the cut, and the whole result is written.
                unsafe {
                    placed(|result| {
                        cs_join(
                            result,
                            t,
                            f,
                            n,
                            key,
                            stamp,
                            length,
                            tray,
                            tray_length,
                            room,
                            room_length,
                        )
                    })
                }
                .into()
            }

            pub fn read(slot: &[u8]) -> Result<Head, Fault> {
                // SAFETY: as in the cut, and the whole result is written.
                unsafe { placed(|result| cs_read(result, slot.as_ptr(), slot.len())) }.into()
            }

            pub fn compare(
                Order { t, f, n }: Order,
                first: &[u8],
                second: &[u8],
                list: &mut [Difference],
            ) -> Compared {
                let (first, first_length) = (first.as_ptr(), first.len());
                let (second, second_length) = (second.as_ptr(), second.len());
                let (list, list_count) = (list.as_mut_ptr(), list.len());
                // SAFETY: as in the cut.
                unsafe {
                    cs_compare(
                        t,
                        f,
                        n,
                        first,
                        first_length,
                        second,
                        second_length,
                        list,
                        list_count,
                    )
                }
            }

            pub fn move_cut(
                Move { old, new: Told { order, key }, length, stamp }: Move,
                keeper: u32,
                letter: &[u8],
                random: &[u16],
                tray: &mut [u8],
            ) -> CutAgain {
                let (letter, letter_length) = (letter.as_ptr(), letter.len());
                let (random, random_count) = (random.as_ptr(), random.len());
                let (tray, tray_length) = (tray.as_mut_ptr(), tray.len());
                // SAFETY: as in the cut.
                unsafe {
                    cs_move_cut(
                        old.t,
                        old.f,
                        old.n,
                        order.t,
                        order.f,
                        order.n,
                        key,
                        length,
                        stamp,
                        keeper,
                        letter,
                        letter_length,
                        random,
                        random_count,
                        tray,
                        tray_length,
                    )
                }
                .into()
            }

            pub fn move_weigh(
                Move { old, new: Told { order, key }, length, stamp }: Move,
                keepers: &[u32],
                keeper: u32,
                letters: &[u8],
                slot: &mut [u8],
            ) -> Weighed {
                let (keepers, keepers_count) = (keepers.as_ptr(), keepers.len());
                let (letters, letters_length) = (letters.as_ptr(), letters.len());
                let (slot, slot_length) = (slot.as_mut_ptr(), slot.len());
                // SAFETY: as in the cut.
                unsafe {
                    cs_move_weigh(
                        old.t,
                        old.f,
                        old.n,
                        order.t,
                        order.f,
                        order.n,
                        key,
                        length,
                        stamp,
                        keepers,
                        keepers_count,
                        keeper,
                        letters,
                        letters_length,
                        slot,
                        slot_length,
                    )
                }
                .into()
            }

            pub fn seal(block: &mut [u8; BLOCK]) {
                // SAFETY: as in the cut, and a block has 512 bytes.
                unsafe { block_check_seal(block.as_mut_ptr(), BLOCK) }
            }
        }
    };
}

calls!(
    plain,
    "cs_cut",
    "cs_pick",
    "cs_join",
    "cs_read",
    "cs_compare",
    "cs_move_cut",
    "cs_move_weigh",
    "seal"
);
#[cfg(target_arch = "x86_64")]
calls!(
    v3,
    "v3_cs_cut",
    "v3_cs_pick",
    "v3_cs_join",
    "v3_cs_read",
    "v3_cs_compare",
    "v3_cs_move_cut",
    "v3_cs_move_weigh",
    "v3_seal"
);
