//! gfshare as a side of a race: the split of the same bytes among as many keepers, and the combine of
//! the fewest shares.

mod calls;

use std::hint::black_box;

use crate::case::Case;
use crate::race::Side;
use calls::{drawn, lent, Combiner, Fill, Splitter};

pub const LENT: &str = "gfshare, random bytes lent";

const KEEPERS: [u8; 16] = [1, 2, 3, 4, 5, 6, 7, 8, 9, 10, 11, 12, 13, 14, 15, 16];
const FEWEST: usize = 4;

struct Split<'a> {
    name: &'static str,
    fill: Fill,
    secret: &'a [u8],
    splitter: Splitter,
    shares: Vec<Vec<u8>>,
}

/// As Csalgodes has its random words lent, so here the random bytes cost no time.
pub fn split(case: &Case) -> Box<dyn Side + '_> {
    splitting(LENT, lent, case)
}

pub fn split_and_draw(case: &Case) -> Box<dyn Side + '_> {
    splitting("gfshare, random bytes drawn", drawn, case)
}

fn splitting<'a>(name: &'static str, fill: Fill, case: &'a Case) -> Box<dyn Side + 'a> {
    let secret = &case.secret;
    let mut splitter = Splitter::new(&KEEPERS, FEWEST as u8, secret.len());
    let mut shares = vec![vec![0; secret.len()]; KEEPERS.len()];
    splitter.split(drawn, secret, &mut shares);
    Box::new(Split { name, fill, secret, splitter, shares })
}

impl Side for Split<'_> {
    fn name(&self) -> &'static str {
        self.name
    }

    fn bytes(&self) -> usize {
        self.secret.len()
    }

    fn prepare(&mut self) {
        self.shares.iter_mut().for_each(|share| share.fill(1));
    }

    fn work(&mut self) {
        self.splitter.split(self.fill, black_box(self.secret), black_box(&mut self.shares));
    }

    fn right(&mut self) -> bool {
        let mut secret = vec![1; self.secret.len()];
        KEEPERS.chunks(FEWEST).zip(self.shares.chunks(FEWEST)).all(|(keepers, shares)| {
            Combiner::new(keepers, self.secret.len()).combine(shares, &mut secret);
            secret == self.secret
        })
    }
}

struct Combine<'a> {
    expected: &'a [u8],
    combiner: Combiner,
    shares: Vec<Vec<u8>>,
    secret: Vec<u8>,
}

pub fn combine(case: &Case) -> Box<dyn Side + '_> {
    let expected = &case.secret;
    let mut shares = vec![vec![0; expected.len()]; KEEPERS.len()];
    Splitter::new(&KEEPERS, FEWEST as u8, expected.len()).split(drawn, expected, &mut shares);
    shares.truncate(FEWEST);
    let combiner = Combiner::new(&KEEPERS[..FEWEST], expected.len());
    Box::new(Combine { expected, combiner, shares, secret: vec![1; expected.len()] })
}

impl Side for Combine<'_> {
    fn name(&self) -> &'static str {
        "gfshare, 4 shares"
    }

    fn bytes(&self) -> usize {
        self.expected.len()
    }

    fn prepare(&mut self) {
        self.secret.fill(1);
    }

    fn work(&mut self) {
        self.combiner.combine(black_box(&self.shares), black_box(&mut self.secret));
    }

    fn right(&mut self) -> bool {
        self.secret == self.expected
    }
}
