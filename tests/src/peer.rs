//! The proved library, called through its C header in a process of its own.
//!
//! So a call that crashed would be seen as one.
//!
//! A request is the call's number, whether empty parts are lent as NULL, ten numbers and the sizes of
//! three parts, then the parts. The reply is nine numbers, then each part as the call left it,
//! between guards. `peer.c` is the other end.

use std::io::{BufReader, Read, Write};
use std::process::{Child, ChildStdin, ChildStdout, Command, Stdio};

use crate::compare::{Compared, Difference};
use crate::desk::{Desk, Stored};
use crate::join::Joined;
use crate::moving::{CutAgain, Move, Weighed};
use crate::order::Order;
use crate::pick::Picked;
use crate::told::Told;

const NUMBERS: usize = 10;
const PARTS: usize = 3;
const RESULTS: usize = 9;
const GUARD: usize = 64;
const GUARD_BYTE: u8 = 0xa5;

/// The bytes of one place in the list of a comparison.
const PLACE: usize = 10;

/// Where the gate builds.
pub const TARGET: &str = concat!(env!("CARGO_MANIFEST_DIR"), "/../target");

/// Starts an x86-64 program on this machine.
const START: &str = concat!(env!("CARGO_MANIFEST_DIR"), "/../library/start");

/// Names the file of a shared library. The peer is then the one that loads it, not the one that has
/// the static library in it.
const LOADED: &str = "CSALGODES_LOADED";

/// A command that runs one of the project's x86-64 programs on this machine.
pub fn program(path: &str) -> Command {
    let mut command = Command::new(START);
    command.arg(format!("{TARGET}/{path}"));
    command
}

pub struct Peer {
    process: Child,
    requests: Option<ChildStdin>,
    replies: BufReader<ChildStdout>,
    null: bool,
}

/// What a call answers, and how it leaves what it was lent.
struct Reply {
    numbers: [u32; RESULTS],
    left: Vec<Vec<u8>>,
}

impl Peer {
    pub fn start() -> Peer {
        let loaded = std::env::var(LOADED).ok();
        let path = if loaded.is_some() { "outside/peer.loading" } else { "outside/peer" };
        let mut process = program(path)
            .stdin(Stdio::piped())
            .stdout(Stdio::piped())
            .spawn()
            .expect("library/start is there");
        let requests = process.stdin.take();
        let replies = BufReader::new(process.stdout.take().expect("it was asked for"));
        let mut peer = Peer { process, requests, replies, null: false };
        if let Some(file) = loaded {
            peer.has_loaded(&file);
        }
        peer
    }

    /// One that lends NULL for what is empty, as C programs do.
    pub fn with_null() -> Peer {
        let mut peer = Peer::start();
        peer.null = true;
        peer
    }

    /// Sees that the process has that very file in its memory. It has answered a call by then, so it
    /// has loaded what it will.
    fn has_loaded(&mut self, file: &str) {
        self.read(&[]);
        let memory = std::fs::read_to_string(format!("/proc/{}/maps", self.process.id()))
            .expect("the peer runs");
        assert!(memory.lines().any(|line| line.ends_with(file)), "the peer has not loaded {file}");
    }

    fn call(&mut self, call: u32, numbers: &[u32], lent: &[&[u8]]) -> Reply {
        let mut words = vec![call, u32::from(self.null)];
        words.extend(numbers);
        words.resize(2 + NUMBERS, 0);
        words.extend(lent.iter().map(|part| part.len() as u32));
        words.resize(2 + NUMBERS + PARTS, 0);
        let mut request: Vec<u8> = words.iter().flat_map(|word| word.to_le_bytes()).collect();
        request.extend(lent.concat());
        let requests = self.requests.as_mut().expect("open until the end");
        requests.write_all(&request).expect("the peer takes the request");

        let numbers = std::array::from_fn(|_| {
            let bytes = self.take(4).try_into().expect("four bytes");
            u32::from_le_bytes(bytes)
        });
        let sizes = lent.iter().map(|part| part.len()).chain([0; PARTS]).take(PARTS);
        let left = sizes.map(|size| self.take_guarded(size)).collect();
        Reply { numbers, left }
    }

    fn take(&mut self, count: usize) -> Vec<u8> {
        let mut bytes = vec![0; count];
        self.replies.read_exact(&mut bytes).expect("the peer answers, and has not crashed");
        bytes
    }

    fn take_guarded(&mut self, count: usize) -> Vec<u8> {
        let [front, part, back] = [GUARD, count, GUARD].map(|count| self.take(count));
        let whole = front.iter().chain(&back).all(|&byte| byte == GUARD_BYTE);
        assert!(whole, "the call wrote beside what it was lent");
        part
    }

    /// Number, place, t, f, n, key, keeper, stamp, length.
    pub fn read(&mut self, slot: &[u8]) -> [u32; RESULTS] {
        let Reply { numbers, left } = self.call(0, &[], &[slot]);
        assert!(left[0] == slot, "the slot is only lent to be read");
        numbers
    }

    pub fn cut(
        &mut self,
        told: Told,
        stamp: u32,
        secret: &[u8],
        random: &[u16],
        tray: &mut [u8],
    ) -> u32 {
        let random = word_bytes(random);
        let told = numbers(told, [stamp]);
        let Reply { numbers, left } = self.call(1, &told, &[secret, &random, tray]);
        assert!(left[0] == secret && left[1] == random, "both are only lent to be read");
        tray.copy_from_slice(&left[2]);
        numbers[0]
    }

    /// The cut of words: a function for other crates, which `crates/inner` hands to C.
    pub fn cut_words(
        &mut self,
        order: Order,
        constants: &[u16],
        random: &[u16],
        rows: &mut [u16],
    ) -> u32 {
        let [constants, random, room] = [constants, random, &*rows].map(word_bytes);
        let numbers = [order.t, order.f, order.n];
        let Reply { numbers, left } = self.call(7, &numbers, &[&constants, &random, &room]);
        assert!(left[0] == constants && left[1] == random, "both are only lent to be read");
        for (word, bytes) in rows.iter_mut().zip(left[2].chunks(2)) {
            *word = u16::from_le_bytes([bytes[0], bytes[1]]);
        }
        numbers[0]
    }

    /// The cutting of one value, for one keeper, by the same way.
    pub fn share_word(&mut self, constant: u16, coefficients: &[u16], x: u16) -> u32 {
        let coefficients = word_bytes(coefficients);
        let numbers = [u32::from(constant), u32::from(x)];
        let Reply { numbers, left } = self.call(8, &numbers, &[&coefficients]);
        assert!(left[0] == coefficients, "the coefficients are only lent to be read");
        numbers[0]
    }

    /// The random word that a draw gives, or 257 where it is drawn again, by the same way.
    pub fn drawn(&mut self, draw: u16) -> u32 {
        self.call(9, &[u32::from(draw)], &[]).numbers[0]
    }

    pub fn join(
        &mut self,
        told: Told,
        stamp: u32,
        length: u32,
        tray: &[u8],
        room: &mut [u8],
    ) -> Joined {
        let told = numbers(told, [stamp, length]);
        let Reply { numbers, left } = self.call(2, &told, &[tray, room]);
        assert!(left[0] == tray, "the tray is only lent to be read");
        room.copy_from_slice(&left[1]);
        let [number, usable, need, set, trials, ..] = numbers;
        Joined { number, usable, need, set, trials }
    }

    pub fn store(&mut self, desk: Desk, held: &mut [u8], offered: &[u8]) -> Stored {
        let told = numbers(desk.told, [desk.keeper]);
        let Reply { numbers, left } = self.call(3, &told, &[held, offered]);
        assert!(left[1] == offered, "the letter is only lent to be read");
        held.copy_from_slice(&left[0]);
        let [number, place, ..] = numbers;
        Stored { number, place }
    }

    pub fn fetch(&mut self, desk: Desk, held: &[u8]) -> u32 {
        let told = numbers(desk.told, [desk.keeper]);
        let Reply { numbers, left } = self.call(4, &told, &[held]);
        assert!(left[0] == held, "the held slot is only lent to be read");
        numbers[0]
    }

    pub fn pick(&mut self, told: Told, tray: &[u8]) -> Picked {
        let Reply { numbers, left } = self.call(5, &numbers(told, []), &[tray]);
        assert!(left[0] == tray, "the tray is only lent to be read");
        let [number, stamp, length, ..] = numbers;
        Picked { number, stamp, length }
    }

    pub fn compare(
        &mut self,
        order: Order,
        first: &[u8],
        second: &[u8],
        list: &mut [Difference],
    ) -> Compared {
        let numbers = [order.t, order.f, order.n];
        let places: Vec<u8> = list.iter().flat_map(place_bytes).collect();
        let Reply { numbers, left } = self.call(6, &numbers, &[first, second, &places]);
        assert!(left[0] == first && left[1] == second, "both are only lent to be read");
        for (place, bytes) in list.iter_mut().zip(left[2].chunks(PLACE)) {
            *place = place_of(bytes);
        }
        let [number, count, ..] = numbers;
        Compared { number, count }
    }

    pub fn move_cut(
        &mut self,
        told: Move,
        keeper: u32,
        letter: &[u8],
        random: &[u16],
        tray: &mut [u8],
    ) -> CutAgain {
        let random = word_bytes(random);
        let told = numbers_of_move(told, keeper);
        let Reply { numbers, left } = self.call(10, &told, &[letter, &random, tray]);
        assert!(left[0] == letter && left[1] == random, "both are only lent to be read");
        tray.copy_from_slice(&left[2]);
        let [number, place, ..] = numbers;
        CutAgain { number, place }
    }

    pub fn move_weigh(
        &mut self,
        told: Move,
        keepers: &[u32],
        keeper: u32,
        letters: &[u8],
        slot: &mut [u8],
    ) -> Weighed {
        let keepers: Vec<u8> = keepers.iter().flat_map(|keeper| keeper.to_le_bytes()).collect();
        let told = numbers_of_move(told, keeper);
        let Reply { numbers, left } = self.call(11, &told, &[&keepers, letters, slot]);
        assert!(left[0] == keepers && left[1] == letters, "both are only lent to be read");
        slot.copy_from_slice(&left[2]);
        let [number, letter, place, ..] = numbers;
        Weighed { number, letter, place }
    }
}

/// The bytes of words, as C has them on x86-64.
fn word_bytes(words: &[u16]) -> Vec<u8> {
    words.iter().flat_map(|word| word.to_le_bytes()).collect()
}

/// The bytes of a place in a list, as C has them on x86-64.
fn place_bytes(place: &Difference) -> Vec<u8> {
    let &Difference { slot, block, word, first, second } = place;
    [slot, block, word, first, second].map(u16::to_le_bytes).concat()
}

fn place_of(bytes: &[u8]) -> Difference {
    let number = |i: usize| u16::from_le_bytes([bytes[2 * i], bytes[2 * i + 1]]);
    let [slot, block, word, first, second] = [0, 1, 2, 3, 4].map(number);
    Difference { slot, block, word, first, second }
}

/// What a call is told: what its letters are of, and then the rest.
fn numbers<const REST: usize>(told: Told, rest: [u32; REST]) -> Vec<u32> {
    let Told { order: Order { t, f, n }, key } = told;
    [t, f, n, key].into_iter().chain(rest).collect()
}

/// What a call of a move is told, and the keeper that calls.
fn numbers_of_move(told: Move, keeper: u32) -> Vec<u32> {
    let Move { old: Order { t, f, n }, new, length, stamp } = told;
    [t, f, n].into_iter().chain(numbers(new, [length, stamp, keeper])).collect()
}

impl Drop for Peer {
    /// The peer ends when its input does; waiting leaves no process behind.
    fn drop(&mut self) {
        drop(self.requests.take());
        let _ = self.process.wait();
    }
}
