//! ssss as a side of a race: a program, so each piece of work is one run of it, its start included. It
//! takes at most 128 bytes, in hexadecimal digits; they are the first of the same secret.

use std::io::Write;
use std::process::{Command, Output, Stdio};

use crate::case::Case;
use crate::race::{seconds, Side};

const BYTES: usize = 128;
const FEWEST: usize = 4;
const SPLIT: [&str; 7] = ["ssss-split", "-t", "4", "-n", "16", "-x", "-Q"];
const COMBINE: [&str; 5] = ["ssss-combine", "-t", "4", "-x", "-Q"];

fn run(words: &[&str], input: &str) -> Output {
    let mut process = Command::new(words[0])
        .args(&words[1..])
        .stdin(Stdio::piped())
        .stdout(Stdio::piped())
        .stderr(Stdio::piped())
        .spawn()
        .expect("ssss is installed");
    let mut pipe = process.stdin.take().expect("it was asked for");
    pipe.write_all(input.as_bytes()).expect("ssss reads its input");
    drop(pipe);
    process.wait_with_output().expect("ssss ends")
}

/// The best time of a run that has nothing to do.
pub fn start() -> f64 {
    let idle = || drop(run(&["ssss-split", "-v"], ""));
    (0..100).map(|_| seconds(idle)).fold(f64::MAX, f64::min)
}

/// The shares that a split writes, each on a line.
fn split_to(secret: &str) -> String {
    String::from_utf8(run(&SPLIT, secret).stdout).expect("shares are digits")
}

/// ssss writes the secret to standard error.
fn combined(shares: &str) -> String {
    String::from_utf8(run(&COMBINE, shares).stderr).expect("a secret is digits")
}

fn fewest(shares: &str) -> String {
    shares.split_inclusive('\n').take(FEWEST).collect()
}

fn digits(case: &Case) -> String {
    let digits: String = case.secret[..BYTES].iter().map(|byte| format!("{byte:02x}")).collect();
    digits + "\n"
}

struct Split {
    secret: String,
    shares: String,
}

pub fn split(case: &Case) -> Box<dyn Side> {
    Box::new(Split { secret: digits(case), shares: String::new() })
}

impl Side for Split {
    fn name(&self) -> &'static str {
        "ssss-split, one run, 128 bytes"
    }

    fn bytes(&self) -> usize {
        BYTES
    }

    fn prepare(&mut self) {
        self.shares.clear();
    }

    fn work(&mut self) {
        self.shares = split_to(&self.secret);
    }

    fn right(&mut self) -> bool {
        self.shares.lines().count() == 16 && combined(&fewest(&self.shares)) == self.secret
    }
}

struct Combine {
    expected: String,
    shares: String,
    secret: String,
}

pub fn combine(case: &Case) -> Box<dyn Side> {
    let expected = digits(case);
    let shares = fewest(&split_to(&expected));
    Box::new(Combine { expected, shares, secret: String::new() })
}

impl Side for Combine {
    fn name(&self) -> &'static str {
        "ssss-combine, one run, 128 bytes"
    }

    fn bytes(&self) -> usize {
        BYTES
    }

    fn prepare(&mut self) {
        self.secret.clear();
    }

    fn work(&mut self) {
        self.secret = combined(&self.shares);
    }

    fn right(&mut self) -> bool {
        self.secret == self.expected
    }
}
