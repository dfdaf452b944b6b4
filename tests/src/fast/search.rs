//! The search for the polynomial at one word, where not everyone agrees.

use super::keepers::Keepers;
use crate::field::{add, multiply, reciprocal, subtract};

/// The keepers whose words lie on the one polynomial that matches at least `need` of them.
///
/// The first t+1 keepers that match leave out at most as many as may fail to match, so only sets with
/// that few left out are tried: some dozens, where all sets of t+1 would be thousands.
pub fn search(keepers: &Keepers, words: &[u16; 17], basis: usize, need: usize) -> Option<Keepers> {
    let spare = keepers.all().len() - need;
    try_next(keepers, words, basis, spare, Newton::new(), 0, 0)
}

fn try_next(
    keepers: &Keepers,
    words: &[u16; 17],
    basis: usize,
    spare: usize,
    chosen: Newton,
    next: usize,
    skipped: usize,
) -> Option<Keepers> {
    if chosen.count == basis {
        let mut matching = Keepers::none();
        for &keeper in keepers.all() {
            if chosen.value(keeper.into()) == u32::from(words[usize::from(keeper)]) {
                matching.push(keeper);
            }
        }
        let missing = keepers.all().len() - matching.all().len();
        return (missing <= spare).then_some(matching);
    }
    let keeper = *keepers.all().get(next)?;
    let with = chosen.through(keeper.into(), words[usize::from(keeper)].into());
    let found = try_next(keepers, words, basis, spare, with, next + 1, skipped);
    if found.is_some() || skipped == spare {
        return found;
    }
    try_next(keepers, words, basis, spare, chosen, next + 1, skipped + 1)
}

/// A polynomial in Newton's form, which takes one point more without starting anew.
#[derive(Clone, Copy)]
struct Newton {
    points: [u32; 8],
    coefficients: [u32; 8],
    count: usize,
}

impl Newton {
    fn new() -> Newton {
        Newton { points: [0; 8], coefficients: [0; 8], count: 0 }
    }

    fn value(&self, x: u32) -> u32 {
        (0..self.count).rev().fold(0, |value, k| {
            add(multiply(value, subtract(x, self.points[k])), self.coefficients[k])
        })
    }

    fn through(mut self, x: u32, y: u32) -> Newton {
        let apart = self.points[..self.count]
            .iter()
            .fold(1, |product, &point| multiply(product, subtract(x, point)));
        let coefficient = multiply(subtract(y, self.value(x)), reciprocal(apart));
        self.points[self.count] = x;
        self.coefficients[self.count] = coefficient;
        self.count += 1;
        self
    }
}
