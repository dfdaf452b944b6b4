//! Who does what the library does: the library and the second program, each as it is compiled for any
//! processor of the machine's kind, and where the processor has x86-64-v3 as it is compiled for that.

use second::block::BLOCK;
use second::fast;
use second::join::Joined;
use second::letter::{Fault, Head};
use second::moving::{CutAgain, Move, Weighed};
use second::order::Order;
use second::pick::Picked;
use second::told::Told;

use crate::library::{plain, Compared, Difference};
#[cfg(target_arch = "x86_64")]
use crate::v3;

pub const LIBRARY: &str = "Csalgodes";
pub const LIBRARY_V3: &str = "Csalgodes for v3";
pub const SECOND: &str = "second program";

pub type CutCall = fn(Told, u32, &[u8], &[u16], &mut [u8]) -> u32;
pub type PickCall = fn(Told, &[u8]) -> Picked;
pub type JoinCall = fn(Told, u32, u32, &[u8], &mut [u8]) -> Joined;
pub type ReadCall = fn(&[u8]) -> Result<Head, Fault>;
pub type MoveCutCall = fn(Move, u32, &[u8], &[u16], &mut [u8]) -> CutAgain;
pub type MoveWeighCall = fn(Move, &[u32], u32, &[u8], &mut [u8]) -> Weighed;
pub type CompareCall = fn(Order, &[u8], &[u8], &mut [Difference]) -> Compared;
pub type SealCall = fn(&mut [u8; BLOCK]);

pub struct Program {
    pub name: &'static str,
    pub cut: CutCall,
    pub join: JoinCall,
    /// The second program's best loops read no letter and seal no block by itself.
    pub read: Option<ReadCall>,
    pub seal: Option<SealCall>,
    /// The library's pick is raced beside its own joins.
    pub pick: Option<PickCall>,
    /// Both halves of a move are raced beside the library's own cut and join.
    pub move_cut: Option<MoveCutCall>,
    pub move_weigh: Option<MoveWeighCall>,
    /// The library alone is raced beside memcmp.
    pub compare: Option<CompareCall>,
}

/// What a work of the library's is called where it stands beside another of its works: as compiled for any
/// processor, and for x86-64-v3.
pub type Names = [&'static str; 2];

impl Program {
    pub fn is_library(&self) -> bool {
        is_library(self.name)
    }
}

pub fn is_library(name: &str) -> bool {
    [LIBRARY, LIBRARY_V3].contains(&name)
}

pub fn programs() -> Vec<Program> {
    let mut programs = vec![
        Program {
            name: LIBRARY,
            cut: plain::cut,
            join: plain::join,
            read: Some(plain::read),
            seal: Some(plain::seal),
            pick: Some(plain::pick),
            move_cut: Some(plain::move_cut),
            move_weigh: Some(plain::move_weigh),
            compare: Some(plain::compare),
        },
        Program {
            name: SECOND,
            cut: fast::cut,
            join: fast::join,
            read: None,
            seal: None,
            pick: None,
            move_cut: None,
            move_weigh: None,
            compare: None,
        },
    ];
    #[cfg(target_arch = "x86_64")]
    programs.extend(v3::programs());
    // by name: the library first, and each beside itself as compiled for v3
    programs.sort_by_key(|program| program.name);
    programs
}
