//! The program `csalgodes`, several runs of it at once at one place. None writes over what another was
//! told is done, and nothing is left behind.

use std::os::unix::fs::chown;
use std::thread;
use std::time::Duration;

use second::cases::{self, Tray};
use second::desk::Desk;
use second::join::join;
use second::letter::Head;
use second::order::Order;
use second::planted::is_root;
use second::random::Random;
use second::run::{each, each_at_once, told, Ended, Running};
use second::scratch::Scratch;
use second::told::Told;

const AT_ONCE: usize = 5;
const NAMES: [&str; AT_ONCE] = ["1", "2", "3", "4", "5"];

/// The words of a store or a fetch at this desk.
fn at(desk: Desk) -> String {
    format!("{} --keeper {}", told(desk.told), desk.keeper)
}

fn any_desk(random: &Random) -> Desk {
    let Head { told, keeper, .. } = cases::head(random);
    Desk { told, keeper }
}

fn letter_of(desk: Desk, stamp: u32, random: &Random) -> Vec<u8> {
    let head = Head { told: desk.told, keeper: desk.keeper, stamp, length: 40 };
    cases::letter_of(head, random).slot()
}

/// Starts all of these before it waits for any.
fn end_all(scratch: &Scratch, lines: impl Iterator<Item = String>) -> Vec<Ended> {
    let running: Vec<Running> = lines.map(|line| scratch.line(&line).start()).collect();
    running.into_iter().map(Running::end).collect()
}

/// Five letters for one desk, which may hold an older one.
struct Stores {
    desk: Desk,
    held: Option<Vec<u8>>,
    letters: Vec<Vec<u8>>,
    /// In this order they are offered.
    turns: Vec<usize>,
}

impl Stores {
    fn new(stamps: [u32; AT_ONCE], held: bool, random: &Random) -> Stores {
        let desk = any_desk(random);
        let held = held.then(|| letter_of(desk, 1, random));
        let letters = stamps.map(|stamp| letter_of(desk, stamp, random)).to_vec();
        Stores { desk, held, letters, turns: random.sample(AT_ONCE, AT_ONCE) }
    }

    /// How each letter's store ends.
    fn end(&self, scratch: &Scratch) -> Vec<Ended> {
        NAMES.iter().zip(&self.letters).for_each(|(name, letter)| scratch.write(name, letter));
        if let Some(held) = &self.held {
            scratch.write("desk", held);
        }
        let line = |&turn: &usize| format!("store {} desk {}", at(self.desk), NAMES[turn]);
        let ended = end_all(scratch, self.turns.iter().map(line));
        let mut by_turn: Vec<(&usize, Ended)> = self.turns.iter().zip(ended).collect();
        by_turn.sort_by_key(|(&turn, _)| turn);
        by_turn.into_iter().map(|(_, ended)| ended).collect()
    }

    /// The desk is this letter, its owner's alone, and beside it are the letters offered and nothing else.
    fn leave(&self, scratch: &Scratch, letter: usize) {
        assert!(scratch.read("desk") == self.letters[letter]);
        assert_eq!(scratch.mode("desk"), 0o600);
        scratch.holds(&["1", "2", "3", "4", "5", "desk"]);
    }
}

/// The greatest stamp is held at the end, whoever came first. A letter that came after a greater one was
/// refused for that and nothing else.
#[test]
fn five_stores_of_five_stamps() {
    let random = &Random::new(201);
    let any_stamps = || {
        let lowest = random.between(2, 1000);
        std::array::from_fn(|letter| lowest + letter as u32)
    };
    let rounds: Vec<Stores> =
        (0..200).map(|round| Stores::new(any_stamps(), round % 2 == 0, random)).collect();
    each(&rounds, |round| {
        let scratch = Scratch::new();
        let ended = round.end(&scratch);
        for one in &ended {
            match one.status {
                0 => one.is_silent(),
                _ => one.answers(14),
            }
        }
        ended[AT_ONCE - 1].is_silent();
        round.leave(&scratch, AT_ONCE - 1);
    });
}

/// Of five different letters with one stamp the desk takes one, and says so to one alone.
#[test]
fn five_stores_of_one_stamp() {
    let random = &Random::new(202);
    let rounds: Vec<Stores> =
        (0..20).map(|round| Stores::new([7; AT_ONCE], round % 2 == 0, random)).collect();
    each(&rounds, |round| {
        let scratch = Scratch::new();
        let ended = round.end(&scratch);
        let taken = only_one(&ended, 0);
        ended.iter().filter(|one| one.status != 0).for_each(|one| one.answers(15));
        ended[taken].is_silent();
        round.leave(&scratch, taken);
    });
}

/// Which of these ended with this status, and no other did.
fn only_one(ended: &[Ended], status: i32) -> usize {
    let found: Vec<usize> = (0..ended.len()).filter(|&one| ended[one].status == status).collect();
    assert_eq!(found.len(), 1, "{ended:?}");
    found[0]
}

/// Of several runs that make one file or folder, one makes it and the others find it there. The one that
/// was told that it is done is the one whose work stands there.
fn one_makes_it(ended: &[Ended]) -> usize {
    let made = only_one(ended, 0);
    ended.iter().filter(|one| one.status != 0).for_each(Ended::is_trouble);
    made
}

/// Five desks, each with a letter of its own.
fn five_desks(scratch: &Scratch, random: &Random) -> (Desk, Vec<Vec<u8>>) {
    let desk = any_desk(random);
    let letters: Vec<Vec<u8>> = (1..=5).map(|stamp| letter_of(desk, stamp, random)).collect();
    NAMES.iter().zip(&letters).for_each(|(name, letter)| scratch.write(name, letter));
    (desk, letters)
}

#[test]
fn five_fetches_to_one_file() {
    let random = &Random::new(203);
    for round in 0..8 {
        let scratch = Scratch::new();
        let (desk, letters) = five_desks(&scratch, random);
        let replaces = round % 2 == 1;
        let option = if replaces { "--replace" } else { "" };
        let lines = NAMES.iter().map(|name| format!("fetch {} {option} {name} out", at(desk)));
        let ended = end_all(&scratch, lines);
        if replaces {
            ended.iter().for_each(Ended::is_silent);
            assert!(letters.contains(&scratch.read("out")));
        } else {
            assert!(letters[one_makes_it(&ended)] == scratch.read("out"));
        }
        scratch.holds(&["1", "2", "3", "4", "5", "out"]);
    }
}

#[test]
fn five_joins_to_one_file() {
    let random = &Random::new(204);
    for round in 0..8 {
        let scratch = Scratch::new();
        let what = cases::told_of(Order::new(1, 1, 6), random);
        let trays: Vec<Tray> = (0..5).map(|_| Tray::cut(what, 3, 50, random)).collect();
        NAMES.iter().zip(&trays).for_each(|(name, tray)| scratch.tray(name, &tray.bytes));
        let replaces = round % 2 == 1;
        let option = if replaces { "--replace" } else { "" };
        let lines = NAMES.iter().map(|name| format!("join {} {option} {name} out", told(what)));
        let ended = end_all(&scratch, lines);
        if replaces {
            assert!(ended.iter().all(|one| one.status == 0), "{ended:?}");
            assert!(trays.iter().any(|tray| tray.secret == scratch.read("out")));
        } else {
            assert!(trays[one_makes_it(&ended)].secret == scratch.read("out"));
        }
        scratch.holds(&["1", "2", "3", "4", "5", "out"]);
    }
}

/// The letters that stand there at the end are all of one cut.
#[test]
fn five_cuts_to_one_folder() {
    let random = &Random::new(205);
    for round in 0..8 {
        let scratch = Scratch::new();
        let what = cases::told_of(Order::new(2, 1, 8), random);
        let secrets: Vec<Vec<u8>> = NAMES.iter().map(|_| random.bytes(100)).collect();
        NAMES.iter().zip(&secrets).for_each(|(name, secret)| scratch.write(name, secret));
        if round % 2 == 1 {
            scratch.folder("letters");
        }
        let line = |name: &&str| format!("cut {} --stamp 1 {name} letters", told(what));
        let made = one_makes_it(&end_all(&scratch, NAMES.iter().map(line)));
        assert!(joined(what, 1, 100, &scratch.slots("letters", 8)) == secrets[made]);
        scratch.holds(&["1", "2", "3", "4", "5", "letters"]);
    }
}

/// What all n letters of a tray join to.
fn joined(what: Told, stamp: u32, length: u32, tray: &[u8]) -> Vec<u8> {
    let mut secret = vec![0; length as usize];
    let found = join(what, stamp, length, tray, &mut secret);
    assert_eq!((found.number, found.usable), (0, what.order.n));
    secret
}

/// Where somebody holds a desk and never lets go, a store waits for a time and gives up. It says which
/// process it is, as the lock does, and whose, and changes nothing.
#[test]
fn a_lock_that_stays() {
    let random = &Random::new(206);
    let scratch = Scratch::new();
    let desk = any_desk(random);
    scratch.write("desk", &letter_of(desk, 1, random));
    scratch.write("letter", &letter_of(desk, 2, random));
    scratch.write("desk.lock", b"process 31415\n");
    if is_root() {
        chown(scratch.at("desk.lock"), Some(27_182), None).expect("root may");
    }
    let before = scratch.look();
    let running = scratch.line(&format!("store {} desk letter", at(desk))).start();
    let began = running.began();
    let ended = running.end();
    let waited = began.elapsed();
    ended.is_trouble();
    let said = ended.said();
    assert!(said.contains("desk.lock") && said.contains("31415"), "{said}");
    assert!(said.contains("27182") || !is_root(), "{said}");
    assert!(waited > Duration::from_secs(3), "it waited {waited:?}");
    assert_eq!(scratch.look(), before);
}

/// A lock may say anything, and of any length. What it says reaches nobody's terminal as it is, and where
/// it cannot be told whose it is, the store still gives up.
#[test]
fn locks_that_say_other_things() {
    let long = "process 1".repeat(10_000);
    let said: [&[u8]; 6] = [
        b"",
        b"process \x1b[31m\x07\n\n\x7f",
        b"process 18446744073709551617\n",
        b"%s%s%s%n\n",
        &[0; 100],
        long.as_bytes(),
    ];
    let random = &Random::new(207);
    let desk = any_desk(random);
    let letters = [1, 2].map(|stamp| letter_of(desk, stamp, random));
    each_at_once(&said, |lock| {
        let scratch = Scratch::new();
        scratch.write("desk", &letters[0]);
        scratch.write("letter", &letters[1]);
        scratch.write("desk.lock", lock);
        let before = scratch.look();
        scratch.run(&format!("store {} desk letter", at(desk))).is_trouble();
        assert_eq!(scratch.look(), before);
    });
}

/// A store that waits goes on when the lock goes. The letter is judged by what the desk holds then, not by
/// what it held when the store was begun.
#[test]
fn a_lock_that_goes() {
    let random = &Random::new(208);
    let scratch = Scratch::new();
    let desk = any_desk(random);
    let [older, offered, newer] = [1, 2, 3].map(|stamp| letter_of(desk, stamp, random));
    scratch.write("letter", &offered);
    for (meanwhile, status) in [(&older, 0), (&newer, 14)] {
        scratch.write("desk", &older);
        scratch.write("desk.lock", b"process 1\n");
        let mut running = scratch.line(&format!("store {} desk letter", at(desk))).start();
        thread::sleep(Duration::from_millis(1500));
        assert!(!running.has_ended(), "it waits");
        scratch.write("desk", meanwhile);
        scratch.remove("desk.lock");
        let ended = running.end();
        assert_eq!(ended.status, status, "{ended:?}");
        let held = if status == 0 { &offered } else { &newer };
        assert!(scratch.read("desk") == *held);
        scratch.holds(&["desk", "letter"]);
    }
}

/// A store that was killed leaves its lock, and the desk as it was: who fetches is not held up by it.
#[test]
fn a_fetch_beside_a_lock() {
    let random = &Random::new(209);
    let scratch = Scratch::new();
    let desk = any_desk(random);
    let letter = letter_of(desk, 5, random);
    scratch.write("desk", &letter);
    scratch.write("desk.lock", b"process 1\n");
    scratch.run(&format!("fetch {} desk out", at(desk))).is_silent();
    assert!(scratch.read("out") == letter);
    scratch.holds(&["desk", "desk.lock", "out"]);
}

/// Another thing that a killed store may leave: a new letter under a name of its own. It is in nobody's way.
#[test]
fn a_store_beside_what_was_left() {
    let random = &Random::new(220);
    let scratch = Scratch::new();
    let desk = any_desk(random);
    let letter = letter_of(desk, 5, random);
    scratch.write("letter", &letter);
    scratch.write("desk.new-abc123", b"half a letter");
    scratch.run(&format!("store {} desk letter", at(desk))).is_silent();
    assert!(scratch.read("desk") == letter);
    assert!(!scratch.has("desk.lock"));
}

/// The lock of a file that is fetched or joined to, which is another than the desk's.
#[test]
fn a_lock_of_what_is_written() {
    let random = &Random::new(210);
    let tray = Tray::cut(cases::told_of(Order::new(1, 1, 6), random), 3, 50, random);
    let what = told(tray.told);
    let lines = [
        format!("fetch {what} --keeper 2 tray/2 out"),
        format!("join {what} tray out"),
        format!("fetch {what} --keeper 2 --replace tray/2 out"),
        format!("join {what} --replace tray out"),
    ];
    each_at_once(&lines, |line| {
        let scratch = Scratch::new();
        scratch.tray("tray", &tray.bytes);
        scratch.write("out.lock", b"process 27182\n");
        if line.contains("--replace") {
            scratch.write("out", b"what was there");
        }
        let before = scratch.look();
        let ended = scratch.run(line);
        ended.is_trouble();
        assert!(ended.said().contains("27182"), "{ended:?}");
        assert_eq!(scratch.look(), before);
    });
}
