//! The sealing of one block as a side, by the library.

use std::hint::black_box;

use second::block::{bytes, seal, words, BLOCK};

use crate::case::Case;
use crate::programs::{programs, Program, SealCall};
use crate::race::{Side, Sides};

/// Where the check words of a block begin.
const CHECK: usize = BLOCK - 4;

type Block = [u8; BLOCK];

/// Seals each block of a tray, one after the other: to look at the clock takes a good part of the time that
/// one block does.
struct Seal {
    name: &'static str,
    call: SealCall,
    expected: Vec<Block>,
    blocks: Vec<Block>,
}

pub fn seals(case: &Case) -> Sides<'static> {
    let expected: Vec<_> = case.tray.chunks_exact(BLOCK).map(sealed).collect();
    let side = |Program { name, seal, .. }| -> Option<Box<dyn Side>> {
        let (expected, blocks) = (expected.clone(), expected.clone());
        Some(Box::new(Seal { name, call: seal?, expected, blocks }))
    };
    programs().into_iter().filter_map(side).collect()
}

/// The block as the plain second program seals it.
fn sealed(block: &[u8]) -> Block {
    let mut words = words(block);
    seal(&mut words);
    bytes(&words).try_into().expect("a block has its length")
}

impl Side for Seal {
    fn name(&self) -> &'static str {
        self.name
    }

    fn bytes(&self) -> usize {
        BLOCK
    }

    /// No word of a good block is 65535.
    fn prepare(&mut self) {
        self.blocks.iter_mut().for_each(|block| block[CHECK..].fill(255));
    }

    fn work(&mut self) {
        for block in black_box(&mut self.blocks) {
            (self.call)(block);
        }
    }

    fn pieces(&self) -> usize {
        self.blocks.len()
    }

    fn right(&mut self) -> bool {
        self.blocks == self.expected
    }
}
