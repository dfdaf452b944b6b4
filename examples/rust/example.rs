//! Csalgodes from Rust: cuts a secret for seven keepers, loses one letter, takes another from a
//! liar, sees by comparing which slots changed, picks what to join, and joins it. For a key of another
//! number the same letters give nothing. Then there is one liar too many, then too many letters are
//! lost, and the pick refuses. At last the letters as they were cut are moved to eight new keepers,
//! who get the same secret.
//!
//!     rustc --edition 2021 -L target/library examples/rust/example.rs

mod csalgodes;

use csalgodes::{compare, cut, join, move_cut, move_weigh, pick, Move, Order, Picked, SLOT};
use std::{error::Error, fs::File, io, io::Read, ops::Range};

const ORDER: Order = Order { t: 2, f: 1, n: 7 };
/// By these numbers letters of one secret are told from letters of another.
const KEY: u32 = 3;
const OTHER_KEY: u32 = 4;
const STAMP: u32 = 1;
const LENGTH: usize = 32;
const TRAY: usize = ORDER.n as usize * SLOT;
/// Where the key moves to, and the old keepers that cut for that, who are t+1.
const NEW_ORDER: Order = Order { t: 3, f: 1, n: 8 };
const NEW_STAMP: u32 = 2;
const NEW_TRAY: usize = NEW_ORDER.n as usize * SLOT;
const MOVE: Move =
    Move { old: ORDER, new: NEW_ORDER, key: KEY, length: LENGTH as u32, stamp: NEW_STAMP };
const OLD_KEEPERS: [u32; 3] = [2, 4, 6];

fn slot(keeper: usize) -> Range<usize> {
    (keeper - 1) * SLOT..keeper * SLOT
}

fn random_bytes<const COUNT: usize>() -> io::Result<[u8; COUNT]> {
    let mut bytes = [0; COUNT];
    File::open("/dev/urandom")?.read_exact(&mut bytes)?;
    Ok(bytes)
}

/// 65535 is 255 times 257. Below it each remainder is as likely as any other; it is drawn again.
fn random_word() -> io::Result<u16> {
    loop {
        let draw = u16::from_ne_bytes(random_bytes()?);
        if draw != 65535 {
            return Ok(draw % 257);
        }
    }
}

/// So many as a cut takes under this order.
fn random_words(order: Order) -> io::Result<Vec<u16>> {
    (0..LENGTH * order.t as usize).map(|_| random_word()).collect()
}

/// Cuts a new secret, with words of its own: random words are used once.
fn cut_new(tray: &mut [u8]) -> Result<[u8; LENGTH], Box<dyn Error>> {
    let secret = random_bytes()?;
    cut(ORDER, KEY, STAMP, &secret, &random_words(ORDER)?, tray)
        .map_err(|number| format!("cut: number {number}"))?;
    Ok(secret)
}

/// Says in which slots two trays differ.
fn compare_and_say(before: &[u8], after: &[u8]) -> Result<(), Box<dyn Error>> {
    let differences =
        compare(ORDER, before, after).map_err(|number| format!("compare: number {number}"))?;
    let mut slots: Vec<_> = differences.iter().map(|place| place.slot.to_string()).collect();
    // in rising order, so those of a slot stand together
    slots.dedup();
    println!("compare: slots that changed: {}", slots.join(" "));
    Ok(())
}

/// Picks what to join, and says what that is. None if there is nothing.
fn pick_and_say(tray: &[u8]) -> Option<Picked> {
    match pick(ORDER, KEY, tray) {
        Ok(picked) => {
            println!("pick: {picked}");
            Some(picked)
        }
        Err(refusal) => {
            let stamp = refusal.stamp;
            let why = match refusal.number {
                6 => "too few letters, more keepers must answer".to_string(),
                7 | 8 => format!("there are enough letters of stamp {stamp}, but they do not join"),
                _ => "csalgodes.h says why".to_string(),
            };
            println!("pick: {refusal}\nrefused: {why}");
            None
        }
    }
}

/// Joins what the pick names, and says what was found. None if there is nothing. Where newer letters
/// are lost, it is an older secret: whoever knows the newest stamp compares it with the one picked.
fn join_and_say(tray: &[u8]) -> Option<Vec<u8>> {
    let Picked { stamp, length, .. } = pick_and_say(tray)?;
    let mut room = vec![0; length as usize];
    match join(ORDER, KEY, stamp, tray, &mut room) {
        Ok(found) => {
            let keepers: Vec<_> = found.keepers().iter().map(u32::to_string).collect();
            println!("join for key {KEY}: {found}\nagree: {}", keepers.join(" "));
            Some(room)
        }
        Err(found) => {
            println!("join for key {KEY}: {found}");
            None
        }
    }
}

/// An old keeper cuts its letter again, with words of its own: a sub-letter for each new keeper.
fn cut_again(keeper: u32, tray: &[u8]) -> Result<[u8; NEW_TRAY], Box<dyn Error>> {
    let mut subs = [0; NEW_TRAY];
    move_cut(MOVE, keeper, &tray[slot(keeper as usize)], &random_words(NEW_ORDER)?, &mut subs)
        .map_err(|refusal| format!("keeper {keeper} cuts: number {}", refusal.number))?;
    Ok(subs)
}

/// A new keeper weighs its sub-letters, one of each old keeper, into its letter.
fn weigh(keeper: u32, trays: &[[u8; NEW_TRAY]]) -> Result<[u8; SLOT], Box<dyn Error>> {
    let mut letter = [0; SLOT];
    let subs: Vec<_> = trays.iter().map(|tray| &tray[slot(keeper as usize)]).collect();
    move_weigh(MOVE, &OLD_KEEPERS, keeper, &subs.concat(), &mut letter)
        .map_err(|refusal| format!("keeper {keeper} weighs: number {}", refusal.number))?;
    Ok(letter)
}

/// Moves the key. Each sub-letter goes from one keeper to one other, and nobody has the key meanwhile.
fn move_key(tray: &[u8]) -> Result<Vec<u8>, Box<dyn Error>> {
    let trays =
        OLD_KEEPERS.iter().map(|&old| cut_again(old, tray)).collect::<Result<Vec<_>, _>>()?;
    let old = OLD_KEEPERS.map(|keeper| keeper.to_string());
    println!("move: for {} new keepers cut: {}", NEW_ORDER.n, old.join(" "));
    let letters = (1..=NEW_ORDER.n).map(|new| weigh(new, &trays)).collect::<Result<Vec<_>, _>>()?;
    Ok(letters.concat())
}

/// The secret that the new letters give, if they join. A lie of one old keeper shows in it alone.
fn join_moved(tray: &[u8]) -> Option<[u8; LENGTH]> {
    let mut room = [0; LENGTH];
    let (Ok(found) | Err(found)) = join(NEW_ORDER, KEY, NEW_STAMP, tray, &mut room);
    println!("join of the new letters: {found}");
    (found.number == 0).then_some(room)
}

fn main() -> Result<(), Box<dyn Error>> {
    let (mut tray, mut other_tray) = ([0; TRAY], [0; TRAY]);
    let secret = cut_new(&mut tray)?;
    cut_new(&mut other_tray)?;
    println!("cut: {LENGTH} bytes into {} letters", ORDER.n);
    let as_cut = tray;

    // Keeper 3 lies with a letter of another cut, which every check takes for good.
    tray[slot(3)].copy_from_slice(&other_tray[slot(3)]);
    tray[slot(5)].fill(0);
    compare_and_say(&as_cut, &tray)?;
    if join_and_say(&tray).as_deref() != Some(&secret) {
        return Err("the secret did not come back".into());
    }
    println!("the secret came back");

    // Told another key's number, the join has no letter to use.
    match join(ORDER, OTHER_KEY, STAMP, &tray, &mut [0; LENGTH]) {
        Err(found) if found.number == 6 => println!("join for key {OTHER_KEY}: {found}"),
        _ => return Err(format!("the join for key {OTHER_KEY} did not give 6").into()),
    }

    // Keeper 4 lies too, one more than the order allows for.
    tray[slot(4)].copy_from_slice(&other_tray[slot(4)]);
    if join_and_say(&tray).is_some() {
        return Err("letters of two secrets were joined".into());
    }

    for silent in [1, 2, 4] {
        tray[slot(silent)].fill(0);
    }
    if join_and_say(&tray).is_some() {
        return Err("three letters were joined".into());
    }

    // The old letters stay until the new ones are seen to give the same secret.
    if join_moved(&move_key(&as_cut)?) != Some(secret) {
        return Err("the secret was not moved".into());
    }
    println!("the new letters give the same secret");
    Ok(())
}
