//! The program `csalgodes` where something else stands in place of a file or folder. Nothing hangs, nothing
//! is written through, and what stands there stays as it is.

use std::fs::File;
use std::os::unix::fs::symlink;

use second::cases::Tray;
use second::compare::{compare, Compared};
use second::order::{Order, SLOT};
use second::planted::{all_kinds, no_files, Planted};
use second::random::Random;
use second::report::report;
use second::run::{each, each_at_once, told, Ended, TROUBLE};
use second::scratch::Scratch;
use second::told::Told;

const TOLD: Told = Told { order: Order { t: 1, f: 1, n: 6 }, key: 9 };

/// The file that a planted link leads to. It has a letter, so that whoever follows the link finds a good one.
const OTHER: &str = "other";

/// A secret, a tray of it, a letter and a desk that could take it, and another letter.
fn lay_out() -> (Scratch, Tray) {
    let random = &Random::new(231);
    let scratch = Scratch::new();
    let tray = Tray::cut(TOLD, 5, 60, random);
    let newer = Tray::cut(TOLD, 6, 60, random);
    scratch.write("secret", &tray.secret);
    scratch.tray("tray", &tray.bytes);
    scratch.write("letter", newer.letter(2));
    scratch.write("held", tray.letter(2));
    scratch.write(OTHER, tray.letter(2));
    (scratch, tray)
}

fn store(desk: &str, letter: &str) -> String {
    format!("store {} --keeper 2 {desk} {letter}", told(TOLD))
}

fn fetch(options: &str, desk: &str, letter: &str) -> String {
    format!("fetch {} --keeper 2 {options} {desk} {letter}", told(TOLD))
}

fn join(options: &str, tray: &str, secret: &str) -> String {
    format!("join {} {options} {tray} {secret}", told(TOLD))
}

fn cut(secret: &str, folder: &str) -> String {
    format!("cut {} --stamp 7 {secret} {folder}", told(TOLD))
}

fn compared(before: &str, after: &str) -> String {
    format!("compare --order 1,1,6 {before} {after}")
}

/// Each of these things, with each of these commands.
fn pairs<'a>(planted: &[Planted], lines: &'a [String]) -> Vec<(Planted, &'a String)> {
    let with_each = |&thing: &Planted| lines.iter().map(move |line| (thing, line));
    planted.iter().flat_map(with_each).collect()
}

/// Where this stands at a place, the command has trouble and changes nothing.
fn has_trouble(place: &str, thing: Planted, line: &str) {
    let (scratch, _) = lay_out();
    thing.plant(&scratch.at(place));
    let before = scratch.look();
    let ended = scratch.run(line);
    assert!(ended.status == TROUBLE, "{thing:?} at {place}: {ended:?}");
    ended.is_trouble();
    assert_eq!(scratch.look(), before, "{thing:?} at {place}: {ended:?}");
}

/// Where any of these stands at a place, each of the commands has trouble and changes nothing.
fn is_refused(place: &str, planted: &[Planted], lines: &[String]) {
    each(&pairs(planted, lines), |&(thing, line)| has_trouble(place, thing, line));
}

/// The same of a lock, for which each of them waits.
fn is_waited_for(place: &str, planted: &[Planted], lines: &[String]) {
    each_at_once(&pairs(planted, lines), |&(thing, line)| has_trouble(place, thing, line));
}

#[test]
fn at_a_desk() {
    let lines = [store("desk", "letter"), fetch("", "desk", "out")];
    is_refused("desk", &all_kinds(OTHER), &lines);
}

/// Whatever the lock is, a store that meets it waits and gives up, and does not look into what is no file.
#[test]
fn at_the_lock_of_a_desk() {
    is_waited_for("held.lock", &all_kinds(OTHER), &[store("held", "letter")]);
}

#[test]
fn at_the_lock_of_what_is_written() {
    let lines = [fetch("", "held", "out"), join("", "tray", "out")];
    is_waited_for("out.lock", &all_kinds(OTHER), &lines);
}

/// A letter may have any name, and a lock of that name is still a lock.
#[test]
fn a_letter_at_the_lock() {
    let (scratch, _) = lay_out();
    scratch.write("held.lock", &scratch.read("letter"));
    let before = scratch.look();
    scratch.run(&store("held", "held.lock")).is_trouble();
    assert_eq!(scratch.look(), before);
}

/// `--replace` is for files alone: a link is not followed, and not replaced either.
#[test]
fn at_what_is_written() {
    let lines: Vec<String> = ["", "--replace"]
        .into_iter()
        .flat_map(|option| [fetch(option, "held", "out"), join(option, "tray", "out")])
        .collect();
    is_refused("out", &all_kinds(OTHER), &lines);
}

#[test]
fn at_what_is_read() {
    is_refused(
        "in",
        &no_files(),
        &[cut("in", "letters"), "show in".into(), store("held", "in"), store("desk", "in")],
    );
}

/// A link that leads to what is no file, or to itself.
#[test]
fn links_to_what_is_not_read() {
    let lines = [cut("in", "letters"), "show in".into(), store("held", "in")];
    is_refused("in", &[Planted::Link("in")], &lines);
    each(&pairs(&no_files(), &lines), |&(thing, line)| {
        let (scratch, _) = lay_out();
        thing.plant(&scratch.at("thing"));
        symlink("thing", scratch.at("in")).expect("a link");
        let before = scratch.look();
        scratch.run(line).is_trouble();
        assert_eq!(scratch.look(), before, "{thing:?}: {line}");
    });
}

/// A link to a file is read as the file, and both stay.
#[test]
fn links_to_what_is_read() {
    let (scratch, tray) = lay_out();
    for (link, file) in [("to-secret", "secret"), ("to-letter", "letter"), ("to-tray", "tray")] {
        symlink(file, scratch.at(link)).expect("a link");
    }
    let before = scratch.look();
    scratch.run(&cut("to-secret", "letters")).is_silent();
    scratch.run(&store("desk", "to-letter")).is_silent();
    assert!(scratch.read("desk") == scratch.read("letter"));
    scratch.run("show to-letter").writes("order 1,1,6 key 9 keeper 2 stamp 6 length 60\n");
    assert_eq!(scratch.run(&join("", "to-tray", "joined")).status, 0);
    assert!(scratch.read("joined") == tray.secret);
    ["letters", "desk", "joined"].iter().for_each(|name| scratch.remove(name));
    assert_eq!(scratch.look(), before);
}

/// What stands where a folder of letters is to be made. An empty folder is taken, and so it is not here;
/// a link to one is not an empty folder.
#[test]
fn at_a_folder_of_letters() {
    let mut planted = all_kinds(OTHER);
    planted.retain(|&thing| thing != Planted::Folder);
    planted.push(Planted::Link("tray"));
    is_refused("letters", &planted, &[cut("secret", "letters")]);

    let (scratch, _) = lay_out();
    scratch.folder("empty");
    symlink("empty", scratch.at("letters")).expect("a link");
    let before = scratch.look();
    scratch.run(&cut("secret", "letters")).is_trouble();
    assert_eq!(scratch.look(), before);
}

#[test]
fn at_the_new_folder_of_a_cut() {
    is_refused("letters.new", &all_kinds(OTHER), &[cut("secret", "letters")]);
}

/// A tray that is not there, or is no folder.
#[test]
fn at_a_tray() {
    let mut planted = all_kinds(OTHER);
    planted.retain(|&thing| thing != Planted::Folder);
    is_refused(
        "box",
        &planted,
        &[
            join("", "box", "out"),
            join("", "nowhere", "out"),
            join("", "secret", "out"),
            compared("box", "tray"),
            compared("tray", "box"),
            compared("tray", "nowhere"),
        ],
    );
}

/// The keepers of a tray of sixteen whose slots are no slots, each for a reason of its own.
const BAD: [u32; 10] = [2, 3, 4, 5, 6, 7, 8, 9, 10, 11];

/// Puts something bad into the slot of each of them.
fn spoil(scratch: &Scratch, tray: &Tray) {
    let slot = |keeper: u32| format!("tray/{keeper}");
    BAD.iter().for_each(|&keeper| scratch.remove(slot(keeper)));
    // 2 is not there
    scratch.write(slot(3), &tray.letter(3)[..SLOT - 1]);
    scratch.write(slot(4), &[tray.letter(4), &[0]].concat());
    scratch.write(slot(5), b"");
    let large = File::create_new(scratch.at(slot(6))).expect("a file");
    large.set_len(1 << 36).expect("a file with much room and nothing in it");
    for (thing, keeper) in no_files().into_iter().zip(7..) {
        thing.plant(&scratch.at(slot(keeper)));
    }
}

/// A tray of sixteen of which ten slots are no slots, and the tray as the library is lent it, in which those
/// are zeros.
struct Spoiled {
    scratch: Scratch,
    tray: Tray,
    lent: Vec<u8>,
}

impl Spoiled {
    fn new() -> Spoiled {
        let random = &Random::new(232);
        let scratch = Scratch::new();
        let told = Told::new(Order::new(1, 0, 16), 3);
        let tray = Tray::cut(told, 5, 60, random);
        scratch.tray("tray", &tray.bytes);
        scratch.tray("whole", &tray.bytes);
        spoil(&scratch, &tray);
        // a link to a slot is that slot, and a damaged letter is a slot like any other
        scratch.remove("tray/12");
        symlink("../whole/12", scratch.at("tray/12")).expect("a link");
        let mut lent = tray.bytes.clone();
        lent[12 * SLOT + 9] ^= 1;
        scratch.write("tray/13", &lent[12 * SLOT..13 * SLOT]);
        for keeper in BAD {
            lent[(keeper as usize - 1) * SLOT..][..SLOT].fill(0);
        }
        Spoiled { scratch, tray, lent }
    }

    /// Each bad slot has a line, in the order of the keepers, and there is no other.
    fn are_named(&self, ended: &Ended) {
        let said = ended.said();
        let lines: Vec<&str> =
            said.lines().filter(|line| line.starts_with("csalgodes: tray/")).collect();
        assert_eq!(lines.len(), BAD.len(), "{said}");
        for (line, keeper) in lines.iter().zip(BAD) {
            assert!(line.starts_with(&format!("csalgodes: tray/{keeper}: ")), "{line}");
            assert!(line.contains("counts as an empty slot"), "{line}");
        }
        assert_eq!(lines[0], "csalgodes: tray/2: is not there, and counts as an empty slot");
    }
}

#[test]
fn a_tray_of_bad_slots_joins_from_the_good_ones() {
    let spoiled = Spoiled::new();
    let Spoiled { scratch, tray, lent } = &spoiled;
    let before = scratch.look();
    let ended = scratch.run(&format!("join {} tray joined", told(tray.told)));
    assert_eq!(ended.status, 0, "{ended:?}");
    spoiled.are_named(&ended);
    let input = [&[1, 0, 16, 3], lent.as_slice()].concat();
    let expected = String::from_utf8(report(&input)).expect("the report is text");
    assert_eq!(ended.wrote(), expected + "trials 1\n");
    assert!(scratch.read("joined") == tray.secret);
    scratch.remove("joined");
    assert_eq!(scratch.look(), before);
}

/// An empty slot is compared as zeros.
#[test]
fn a_tray_of_bad_slots_is_compared() {
    let spoiled = Spoiled::new();
    let Spoiled { scratch, tray, lent } = &spoiled;
    let order = tray.told.order;
    let nothing = second::compare::Difference { slot: 0, block: 0, word: 0, first: 0, second: 0 };
    let mut list = vec![nothing; lent.len() / 2];
    let Compared { number, count } = compare(order, &tray.bytes, lent, &mut list);
    assert_eq!(number, 0);
    let before = scratch.look();
    let ended = scratch.run("compare --order 1,0,16 whole tray");
    assert_eq!(ended.status, 99, "{ended:?}");
    spoiled.are_named(&ended);
    assert!(ended.wrote().ends_with(&format!("\n{count} words differ\n")), "{ended:?}");
    assert_eq!(ended.wrote().lines().count(), count as usize + 1);
    assert_eq!(scratch.look(), before);
}

/// A file without an end is not read to its end: it has the wrong length, and so it is answered.
#[test]
fn files_of_any_size() {
    let (scratch, _) = lay_out();
    let large = File::create_new(scratch.at("large")).expect("a file");
    large.set_len(1 << 36).expect("a file with much room and nothing in it");
    let before = scratch.look();
    scratch.run(&cut("large", "letters")).answers(2);
    scratch.run("show large").answers(4);
    scratch.run(&store("held", "large")).answers(4);
    scratch.run(&store("large", "letter")).answers(4);
    scratch.run(&fetch("", "large", "out")).answers(4);
    let endless = |line: &str| scratch.line(line).by_shell("exec \"$@\" </dev/zero").end();
    endless(&cut("-", "letters")).answers(2);
    endless("show -").answers(4);
    endless(&store("held", "-")).answers(4);
    assert_eq!(scratch.look(), before);
}
