//! The report: from the bytes of its input to the bytes it writes.

use crate::join::{join, usable, Joined};
use crate::order::Order;
use crate::pick::{pick, Picked};
use crate::told::Told;

pub fn report(input: &[u8]) -> Vec<u8> {
    let order = |t: u8, f: u8, n: u8| Order::new(t.into(), f.into(), n.into());
    let lines = match *input {
        [t, f, n, key, ref tray @ ..] => report_on(Told::new(order(t, f, n), key.into()), tray),
        // where the key is missing, the order is judged all the same
        [t, f, n] if !order(t, f, n).lawful() => answer(1),
        _ => answer(4),
    };
    lines.into_bytes()
}

fn answer(number: u32) -> String {
    format!("answer {number}\n")
}

fn report_on(told: Told, tray: &[u8]) -> String {
    let Picked { number, stamp, length } = pick(told, tray);
    if ![0, 7, 8].contains(&number) {
        return answer(number);
    }
    report_of(told, stamp, length, tray)
}

/// The same of the letters of one stamp and length.
pub fn report_of(told: Told, stamp: u32, length: u32, tray: &[u8]) -> String {
    let joined = join(told, stamp, length, tray, &mut vec![0; length as usize]);
    if ![0, 7, 8].contains(&joined.number) {
        return answer(joined.number);
    }
    let letters = usable(told, stamp, length, tray);
    let is_usable = |keeper| letters.iter().any(|letter| letter.head.keeper == keeper);

    let mut text = format!("key {} stamp {stamp} length {length}\n", told.key);
    for keeper in 1..=told.order.n {
        let state = if is_usable(keeper) { state(&joined, keeper) } else { "absent" };
        text += &format!("keeper {keeper} {state}\n");
    }
    let Joined { number, usable, need, set, .. } = joined;
    text += &format!("usable {usable} need {need} agree {}\n", set.count_ones());
    text + &answer(number)
}

/// The word for a keeper whose letter was usable.
fn state(joined: &Joined, keeper: u32) -> &'static str {
    if joined.number == 7 {
        "present"
    } else if joined.set >> (keeper - 1) & 1 == 1 {
        "agrees"
    } else {
        "differs"
    }
}
