//! The library and the second program as they are compiled for x86-64-v3.

extern crate second_v3;

use second::join::Joined;
use second::order::Order;
use second::told::Told;
use second_v3::fast;

use crate::library::v3;
use crate::programs::{Program, LIBRARY_V3};

const SECOND_V3: &str = "second program for v3";

/// None where the processor has not what this code uses.
pub fn programs() -> Vec<Program> {
    if !here() {
        return Vec::new();
    }
    vec![
        Program {
            name: LIBRARY_V3,
            cut: v3::cut,
            join: v3::join,
            read: Some(v3::read),
            seal: Some(v3::seal),
            pick: Some(v3::pick),
            move_cut: Some(v3::move_cut),
            move_weigh: Some(v3::move_weigh),
            compare: Some(v3::compare),
        },
        Program {
            name: SECOND_V3,
            cut,
            join,
            read: None,
            seal: None,
            pick: None,
            move_cut: None,
            move_weigh: None,
            compare: None,
        },
    ]
}

/// What x86-64-v3 has beyond older sets; a processor that has these has theirs too.
fn here() -> bool {
    is_x86_feature_detected!("avx2")
        && is_x86_feature_detected!("bmi1")
        && is_x86_feature_detected!("bmi2")
        && is_x86_feature_detected!("f16c")
        && is_x86_feature_detected!("fma")
        && is_x86_feature_detected!("lzcnt")
        && is_x86_feature_detected!("movbe")
}

fn same(Told { order: Order { t, f, n }, key }: Told) -> second_v3::told::Told {
    second_v3::told::Told::new(second_v3::order::Order::new(t, f, n), key)
}

fn cut(told: Told, stamp: u32, secret: &[u8], random: &[u16], tray: &mut [u8]) -> u32 {
    fast::cut(same(told), stamp, secret, random, tray)
}

fn join(told: Told, stamp: u32, length: u32, tray: &[u8], room: &mut [u8]) -> Joined {
    let second_v3::join::Joined { number, usable, need, set, trials } =
        fast::join(same(told), stamp, length, tray, room);
    Joined { number, usable, need, set, trials }
}
