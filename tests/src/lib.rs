//! The second program: the rules of the cut, the letter, the join, the desk, the pick, the report, the
//! comparison and the move, written from the page alone, the sheet of rules that `docs/FORMAT.md` says in our
//! own words. It shares no code and no table with the proved one, so that a mistake would have to be
//! made twice to go unseen.
//!
//! Everything here is written to be plainly right and not to be quick, save `fast`, which holds the
//! best loops we know for the cut and the join, for a fair comparison of speed.
//!
//! Beside the rules stand the means to hold the proved library to them: `peer` calls it, `both` asks the
//! two the same, `cases`, `groups`, `moves`, `damage` and `faults` make what they are asked, `document` reads
//! what a page says of it, and `tally` counts the answers.
//!
//! And there are the means to hold the program `csalgodes` to what it promises: `run` starts it on words and
//! tells how it ended, `scratch` is a folder for it to work in, and `planted` and `mounted` put into that
//! folder what it should not meet there.

pub mod block;
pub mod both;
pub mod cases;
pub mod compare;
pub mod cut;
pub mod damage;
pub mod desk;
pub mod document;
pub mod fast;
pub mod faults;
pub mod field;
pub mod groups;
pub mod join;
pub mod letter;
pub mod mounted;
pub mod moves;
pub mod moving;
pub mod order;
pub mod peer;
pub mod pick;
pub mod planted;
pub mod random;
pub mod report;
pub mod run;
pub mod scratch;
pub mod solve;
pub mod sub_letter;
pub mod tally;
pub mod told;
