//! The two kinds of machine, each with a section of the page and a picture.

#[derive(PartialEq)]
pub struct Kind {
    /// The heading of its section.
    pub name: &'static str,
    pub picture: &'static str,
}

pub const KINDS: [Kind; 2] = [
    Kind { name: "x86-64", picture: "benchmark-x86-64.svg" },
    Kind { name: "Arm", picture: "benchmark-arm.svg" },
];

/// The kind of the machine at hand, and the other; `bench/run` refuses a third.
pub const OWN: &Kind = &KINDS[if cfg!(target_arch = "x86_64") { 0 } else { 1 }];
pub const OTHER: &Kind = &KINDS[if cfg!(target_arch = "x86_64") { 1 } else { 0 }];
