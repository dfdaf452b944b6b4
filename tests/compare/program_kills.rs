//! The program `csalgodes`, killed at any moment. What it makes or replaces is then as it was or whole, and
//! what else it leaves is known by its name.

use std::cell::Cell;
use std::collections::BTreeMap;
use std::ffi::OsString;
use std::fmt::Debug;
use std::fs;
use std::path::Path;
use std::thread;
use std::time::{Duration, Instant};

use second::cases::Tray;
use second::join::join;
use second::order::Order;
use second::random::Random;
use second::run::told;
use second::scratch::{names, Scratch};
use second::told::Told;

const TOLD: Told = Told { order: Order { t: 2, f: 1, n: 16 }, key: 9 };

/// When to kill a run: some time after its start, some time after the first thing that it puts into the
/// folder, for there it has begun to write, or as soon as what it writes is seen to change.
#[derive(Clone, Copy)]
enum Sign {
    Start,
    FirstName,
    Change,
}

/// Moments to kill a run at, which take the signs in turn.
///
/// How long a run takes depends on what else the machine does. So each time grows where the run was killed
/// before it was done, and shrinks where it was done before: in the end as many are killed early as late.
struct Moments<'a> {
    random: &'a Random,
    signs: [(Sign, Cell<Duration>); 3],
    rounds: Cell<usize>,
}

impl<'a> Moments<'a> {
    /// The times are those of a run that is not killed.
    fn of(scratch: &Scratch, line: &str, random: &'a Random) -> Moments<'a> {
        let began = Instant::now();
        let ended = scratch.run(line);
        assert_eq!(ended.status, 0, "{ended:?}");
        let whole = began.elapsed();
        let signs = [
            (Sign::Start, Cell::new(whole)),
            (Sign::FirstName, Cell::new(whole / 20)),
            (Sign::Change, Cell::new(Duration::ZERO)),
        ];
        Moments { random, signs, rounds: Cell::new(0) }
    }

    /// Starts the run, kills it at the next moment, and waits until it is gone. Whether it has done what it
    /// was to do is asked again and again, and whoever asks sees that what stands there is whole.
    fn kill(&self, scratch: &Scratch, line: &str, is_done: impl Fn() -> bool) {
        let (sign, time) = &self.signs[self.rounds.get() % 3];
        self.rounds.set(self.rounds.get() + 1);
        let moment = time.get().mul_f64(2.0 * self.random.below(1001) as f64 / 1000.0);
        let before = scratch.names().len();
        let shows = || match sign {
            Sign::Start => true,
            Sign::FirstName => scratch.names().len() != before,
            Sign::Change => is_done(),
        };
        // what is its owner's alone from the start is so under any mask
        let mut running = scratch.line(line).by_shell("umask 000; exec \"$@\"").start();
        self.sleep_at_first(*sign, moment);
        while !shows() && !running.has_ended() {
            thread::yield_now();
        }
        let from = if let Sign::Start = sign { running.began() } else { Instant::now() };
        while from.elapsed() < moment {
            thread::yield_now();
        }
        running.kill();
        let factor = if is_done() { 0.93 } else { 1.07 };
        time.set(time.get().mul_f64(factor));
    }

    /// To sleep takes longer than some of what is to be met. But the first part of a run is its start, in
    /// which it writes nothing.
    fn sleep_at_first(&self, sign: Sign, moment: Duration) {
        let whole = self.signs[0].1.get();
        thread::sleep(match sign {
            Sign::Start => moment.saturating_sub(Duration::from_millis(1)),
            _ => whole.mul_f64(0.4),
        });
    }
}

/// How often each state was seen.
struct Counts<State> {
    seen: BTreeMap<State, usize>,
    left: BTreeMap<String, usize>,
}

impl<State: Ord + Debug> Counts<State> {
    fn new() -> Counts<State> {
        Counts { seen: BTreeMap::new(), left: BTreeMap::new() }
    }

    fn add(&mut self, state: State) {
        *self.seen.entry(state).or_default() += 1;
    }

    /// Removes what a killed run may leave, and counts it. Anything else must not be there.
    fn clear(&mut self, scratch: &Scratch, known: &[&str], may_be_left: &[&str]) {
        for name in scratch.names() {
            if known.iter().any(|&known| name == known) {
                continue;
            }
            let kind = kind_of(&name, may_be_left);
            assert_is_private(scratch, &name);
            *self.left.entry(kind).or_default() += 1;
            scratch.remove(&name);
        }
    }

    fn expect(&self, states: &[State]) {
        println!("seen {:?}, left behind {:?}", self.seen, self.left);
        assert!(self.seen.keys().eq(states), "{:?}", self.seen);
    }
}

/// Which of the names that may be left this one is. One that ends with '-' is the front of six more bytes.
fn kind_of(name: &OsString, may_be_left: &[&str]) -> String {
    let name = name.to_str().expect("a plain name");
    let is = |&&kind: &&&str| match name.strip_prefix(kind) {
        Some(rest) => kind.ends_with('-') && rest.len() == 6 || rest.is_empty(),
        None => false,
    };
    let kind = may_be_left.iter().find(is);
    kind.unwrap_or_else(|| panic!("{name} is left behind")).to_string()
}

/// What is left is its owner's alone, as what was to be made is. A lock has no part of a letter in it until
/// one is put in its place, and may be anybody's.
fn assert_is_private(scratch: &Scratch, name: &OsString) {
    let (path, mode) = (scratch.at(name), scratch.mode(name));
    if path.is_dir() {
        assert_eq!(mode, 0o700, "{name:?}");
        let is_private = |slot| scratch.mode(path.join(slot)) == 0o600;
        assert!(names(&path).into_iter().all(is_private), "{name:?}");
    } else if !is_lock_of_a_process(&path) {
        assert_eq!(mode, 0o600, "{name:?}");
    }
}

/// It says which process it is of, or was killed before that.
fn is_lock_of_a_process(path: &Path) -> bool {
    let bytes = fs::read(path).expect("it can be read");
    let is_lock = path.extension().is_some_and(|last| last == "lock");
    is_lock && (bytes.is_empty() || bytes.starts_with(b"process "))
}

/// The desk is the old letter or the new one, byte for byte, and both come to be seen.
#[test]
fn stores() {
    let random = &Random::new(211);
    let scratch = Scratch::new();
    let [old, new] = [3, 4].map(|stamp| Tray::cut(TOLD, stamp, 952, random).letter(5).to_vec());
    let line = format!("store {} --keeper 5 desk letter", told(TOLD));
    let is_stored = || {
        let desk = scratch.read("desk");
        assert!(desk == old || desk == new, "{} bytes that are neither letter", desk.len());
        desk == new
    };
    scratch.write("desk", &old);
    scratch.write("letter", &new);
    let moments = Moments::of(&scratch, &line, random);
    let mut counts = Counts::new();
    for _ in 0..200 {
        scratch.remove("desk");
        scratch.write("desk", &old);
        moments.kill(&scratch, &line, is_stored);
        counts.add(if is_stored() { "new" } else { "old" });
        assert!(scratch.read("letter") == new);
        counts.clear(&scratch, &["desk", "letter"], &["desk.lock", "desk.new-"]);
    }
    counts.expect(&["new", "old"]);
}

/// The same of a desk that was not there: it is still not there, or it is the letter.
#[test]
fn first_stores() {
    let random = &Random::new(212);
    let scratch = Scratch::new();
    let tray = Tray::cut(TOLD, 3, 300, random);
    let line = format!("store {} --keeper 5 desk letter", told(TOLD));
    let is_stored = || {
        let stored = scratch.has("desk");
        assert!(!stored || scratch.read("desk") == tray.letter(5));
        stored
    };
    scratch.write("letter", tray.letter(5));
    let moments = Moments::of(&scratch, &line, random);
    let mut counts = Counts::new();
    for _ in 0..42 {
        scratch.remove_if_there("desk");
        moments.kill(&scratch, &line, is_stored);
        counts.add(is_stored());
        counts.clear(&scratch, &["desk", "letter"], &["desk.lock", "desk.new-"]);
    }
    counts.expect(&[false, true]);
}

/// There is no folder of letters, or there is one with a letter of every keeper, and they join.
#[test]
fn cuts() {
    let random = &Random::new(213);
    let scratch = Scratch::new();
    let secret = random.bytes(500);
    let line = format!("cut {} --stamp 6 secret letters", told(TOLD));
    let is_cut = || {
        let cut = scratch.has("letters");
        assert!(!cut || names(&scratch.at("letters")).len() == 16);
        cut
    };
    scratch.write("secret", &secret);
    let moments = Moments::of(&scratch, &line, random);
    let mut counts = Counts::new();
    for _ in 0..42 {
        scratch.remove_if_there("letters");
        moments.kill(&scratch, &line, is_cut);
        counts.add(is_cut());
        assert!(!is_cut() || secret_in(&scratch.slots("letters", 16), 500) == secret);
        counts.clear(&scratch, &["letters", "secret"], &["letters.new"]);
    }
    counts.expect(&[false, true]);
}

/// What all letters of stamp 6 join to.
fn secret_in(tray: &[u8], length: u32) -> Vec<u8> {
    let mut secret = vec![0; length as usize];
    let joined = join(TOLD, 6, length, tray, &mut secret);
    assert_eq!((joined.number, joined.usable), (0, 16));
    secret
}

/// There is no secret, or it is whole; and where one is to be replaced it is the old one or the new one.
fn are_joined(replaced: Option<Vec<u8>>, random: &Random) {
    let scratch = Scratch::new();
    let tray = Tray::cut(TOLD, 6, 952, random);
    scratch.tray("tray", &tray.bytes);
    let option = if replaced.is_some() { "--replace" } else { "" };
    let line = format!("join {} {option} tray secret", told(TOLD));
    let is_joined = || {
        let secret = scratch.has("secret").then(|| scratch.read("secret"));
        let joined = secret.as_ref() == Some(&tray.secret);
        assert!(joined || secret == replaced);
        joined
    };
    let put_back = || {
        scratch.remove_if_there("secret");
        replaced.iter().for_each(|bytes| scratch.write("secret", bytes));
    };
    put_back();
    let moments = Moments::of(&scratch, &line, random);
    let mut counts = Counts::new();
    for _ in 0..42 {
        put_back();
        moments.kill(&scratch, &line, is_joined);
        counts.add(is_joined());
        counts.clear(&scratch, &["secret", "tray"], &["secret.lock", "secret.new-"]);
    }
    counts.expect(&[false, true]);
}

#[test]
fn joins() {
    are_joined(None, &Random::new(214));
}

#[test]
fn joins_that_replace() {
    let random = &Random::new(215);
    are_joined(Some(random.bytes(300)), random);
}
