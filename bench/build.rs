//! Links the proved library and its sealing of one block, which `native` has built for this machine, and
//! gfshare. On x86-64 also both for x86-64-v3, and the second program, compiled once more for that.

use std::env;
use std::process::Command;

const LIBRARY: &str = concat!(env!("CARGO_MANIFEST_DIR"), "/../target/bench");
const SECOND: &str = concat!(env!("CARGO_MANIFEST_DIR"), "/../tests/src");

fn main() {
    println!("cargo:rustc-link-search=native={LIBRARY}");
    println!("cargo:rustc-link-lib=gfshare");
    link("exports");
    link("seal");
    if told("CARGO_CFG_TARGET_ARCH") == "x86_64" {
        link("exports_v3");
        link("seal_v3");
        compile_second_for_v3();
    }
}

fn told(name: &str) -> String {
    env::var(name).expect("Cargo tells it")
}

fn link(name: &str) {
    println!("cargo:rerun-if-changed={LIBRARY}/lib{name}.a");
    println!("cargo:rustc-link-lib=static={name}");
}

/// Cargo has one set of flags for all packages, so this one is compiled by hand, with a name of its own.
fn compile_second_for_v3() {
    let out = told("OUT_DIR");
    println!("cargo:rerun-if-changed={SECOND}");
    println!("cargo:rustc-link-search=crate={out}");
    let done = Command::new(told("RUSTC"))
        .args(["--crate-name", "second_v3", "--crate-type", "rlib", "--edition", "2021"])
        .args(["-C", &format!("opt-level={}", told("OPT_LEVEL")), "-C", "target-cpu=x86-64-v3"])
        .args(["--out-dir", &out, &format!("{SECOND}/lib.rs")])
        .status()
        .expect("rustc starts");
    assert!(done.success(), "the second program was not compiled for x86-64-v3");
}
