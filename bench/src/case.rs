//! What is raced on: a secret of the longest kind, its tray, and what the plain second program makes of
//! it, slowly. Every side must answer that.

use second::damage::exchange_slot;
use second::join::{join, Joined};
use second::order::{Order, LONGEST};
use second::random::Random;
use second::told::Told;

/// The number of the key whose letters are raced on.
pub const KEY: u32 = 200;
pub const STAMP: u32 = 7;

pub struct Case {
    pub told: Told,
    pub secret: Vec<u8>,
    pub random: Vec<u16>,
    pub tray: Vec<u8>,
    /// What the join answers, and what it leaves of a room of ones.
    pub joined: Joined,
    pub room: Vec<u8>,
}

impl Case {
    pub fn good(order: Order, random: &Random) -> Case {
        let told = Told::new(order, KEY);
        let secret = random.bytes(LONGEST);
        let random = random.words(LONGEST * order.t as usize);
        let tray = cut(told, STAMP, &secret, &random);
        Case::with_tray(told, secret, random, tray)
    }

    /// The first three keepers lie in league: theirs are the letters of a secret with another last
    /// byte, cut with the same random words. So their checks are good, and only the last word differs.
    pub fn three_liars(order: Order, random: &Random) -> Case {
        let Case { told, mut tray, secret, random, .. } = Case::good(order, random);
        let mut other = secret.clone();
        other[LONGEST - 1] ^= 1;
        let lies = cut(told, STAMP, &other, &random);
        (1..=3).for_each(|keeper| exchange_slot(&mut tray, &lies, keeper));
        Case::with_tray(told, secret, random, tray)
    }

    fn with_tray(told: Told, secret: Vec<u8>, random: Vec<u16>, tray: Vec<u8>) -> Case {
        let mut room = vec![1; LONGEST];
        let joined = join(told, STAMP, LONGEST as u32, &tray, &mut room);
        Case { told, secret, random, tray, joined, room }
    }
}

pub fn cut(told: Told, stamp: u32, secret: &[u8], random: &[u16]) -> Vec<u8> {
    let mut tray = vec![0; told.order.tray()];
    assert_eq!(second::cut::cut(told, stamp, secret, random, &mut tray), 0);
    tray
}
