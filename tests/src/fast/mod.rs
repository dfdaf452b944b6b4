//! The best loops we know for the cut and the join: whole rows of 16-bit words, so that the
//! compiler can take many at a time. They do the same work, every check included, and are held equal
//! to the plain program; they exist to be raced.

mod block;
mod cut;
mod join;
mod keepers;
mod search;
mod trials;

pub use cut::cut;
pub use join::join;

/// Words taken at a time.
const STRIDE: usize = 64;

/// The longest secret's words in whole strides, so that no loop has a rest to treat apart.
const ROW: usize = crate::order::LONGEST.next_multiple_of(STRIDE);

/// The share words of one keeper, or one coefficient of each polynomial.
type Row = [u16; ROW];
