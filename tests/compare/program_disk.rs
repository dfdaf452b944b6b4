//! The program `csalgodes` where nothing can be written: on a full disk, on one that may only be read, in a
//! folder of somebody else's, and to an output that takes nothing. It says so, and all is as it was.

use std::fs;
use std::path::Path;

use second::cases::Tray;
use second::mounted::{alone, Mounted};
use second::order::Order;
use second::planted::is_root;
use second::random::Random;
use second::run::{each, told, Run, TROUBLE};
use second::scratch::{look, Scratch};
use second::told::Told;

const TOLD: Told = Told { order: Order { t: 2, f: 1, n: 8 }, key: 9 };

/// Started so, root may do no more in a folder than its mode says.
const AS_ANYBODY: [&str; 2] = ["setpriv", "--bounding-set=-dac_override,-dac_read_search"];

/// What is read, on a disk that has room: a secret, a tray of its letters, and a newer letter of keeper 3's.
fn lay_out(scratch: &Scratch) -> Tray {
    let random = &Random::new(221);
    let tray = Tray::cut(TOLD, 5, 400, random);
    scratch.write("secret", &tray.secret);
    scratch.tray("tray", &tray.bytes);
    scratch.write("letter", Tray::cut(TOLD, 6, 400, random).letter(3));
    tray
}

/// What stands already where is to be written: a desk that holds a letter, a file and an empty folder.
fn lay_out_there(scratch: &Scratch, folder: &str, tray: &Tray) {
    let folder = Path::new(folder);
    scratch.write(folder.join("desk"), tray.letter(3));
    scratch.write(folder.join("file"), b"what was there");
    scratch.folder(folder.join("empty"));
}

/// Each way to write to this folder.
fn writing_to(folder: &str) -> Vec<String> {
    let what = told(TOLD);
    vec![
        format!("store {what} --keeper 3 {folder}/desk letter"),
        format!("store {what} --keeper 3 {folder}/new-desk letter"),
        format!("fetch {what} --keeper 3 tray/3 {folder}/fetched"),
        format!("fetch {what} --keeper 3 --replace tray/3 {folder}/file"),
        format!("join {what} tray {folder}/joined"),
        format!("join {what} --replace tray {folder}/file"),
        format!("cut {what} --stamp 9 secret {folder}/letters"),
        format!("cut {what} --stamp 9 secret {folder}/empty"),
    ]
}

/// None of them can be done, and none leaves anything behind.
fn nothing_is_written(scratch: &Scratch, folder: &str, start: impl Fn(Run) -> Run) {
    let before = look(&scratch.at(folder));
    for line in writing_to(folder) {
        start(scratch.line(&line)).end().is_trouble();
        assert_eq!(look(&scratch.at(folder)), before, "{line}");
    }
}

/// What only reads there goes on.
fn a_desk_can_be_read(scratch: &Scratch, folder: &str, tray: &Tray) {
    scratch.run(&format!("fetch {} --keeper 3 {folder}/desk out", told(TOLD))).is_silent();
    assert!(scratch.read("out") == tray.letter(3));
}

#[test]
fn a_full_disk() {
    alone("a_full_disk", || {
        let scratch = Scratch::new();
        let tray = lay_out(&scratch);
        let disk = Mounted::new(&scratch, "full", "size=256k");
        lay_out_there(&scratch, "full", &tray);
        disk.fill(0);
        nothing_is_written(&scratch, "full", |run| run);
        a_desk_can_be_read(&scratch, "full", &tray);
    });
}

/// A cut for which there is room for some letters and not for all.
#[test]
fn a_disk_with_too_little_room() {
    alone("a_disk_with_too_little_room", || {
        let scratch = Scratch::new();
        lay_out(&scratch);
        for left in 0..8 {
            let disk = Mounted::new(&scratch, "full", "size=256k");
            disk.fill(left);
            let before = look(&scratch.at("full"));
            let cut = format!("cut {} --stamp 9 secret full/letters", told(TOLD));
            scratch.run(&cut).is_trouble();
            assert_eq!(look(&scratch.at("full")), before, "room for {left}");
        }
        let disk = Mounted::new(&scratch, "full", "size=256k");
        disk.fill(9);
        scratch.run(&format!("cut {} --stamp 9 secret full/letters", told(TOLD))).is_silent();
    });
}

#[test]
fn a_disk_with_no_room_for_names() {
    alone("a_disk_with_no_room_for_names", || {
        let scratch = Scratch::new();
        let tray = lay_out(&scratch);
        let disk = Mounted::new(&scratch, "full", "size=256k,nr_inodes=32");
        lay_out_there(&scratch, "full", &tray);
        disk.fill_with_names();
        nothing_is_written(&scratch, "full", |run| run);
        a_desk_can_be_read(&scratch, "full", &tray);
    });
}

#[test]
fn a_disk_that_may_only_be_read() {
    alone("a_disk_that_may_only_be_read", || {
        let scratch = Scratch::new();
        let tray = lay_out(&scratch);
        let disk = Mounted::new(&scratch, "fixed", "size=256k");
        lay_out_there(&scratch, "fixed", &tray);
        disk.make_read_only();
        nothing_is_written(&scratch, "fixed", |run| run);
        a_desk_can_be_read(&scratch, "fixed", &tray);
    });
}

/// A run that may do what modes allow and no more, whoever runs the tests.
fn as_anybody(run: Run) -> Run {
    if is_root() {
        run.by(&AS_ANYBODY)
    } else {
        run
    }
}

#[test]
fn a_folder_without_permission() {
    let scratch = Scratch::new();
    let tray = lay_out(&scratch);
    scratch.folder("closed");
    lay_out_there(&scratch, "closed", &tray);
    scratch.set_mode("closed", 0o555);
    nothing_is_written(&scratch, "closed", as_anybody);
    a_desk_can_be_read(&scratch, "closed", &tray);
    // it may not even be looked into
    scratch.set_mode("closed", 0o000);
    for line in writing_to("closed") {
        as_anybody(scratch.line(&line)).end().is_trouble();
    }
    scratch.set_mode("closed", 0o755);
    assert_eq!(fs::read_dir(scratch.at("closed")).expect("a folder").count(), 3);
}

/// Where no file may grow, whoever runs the tests. The shell sees to it that the program is told so by a
/// write that fails, and not by a signal.
#[test]
fn files_that_may_not_grow() {
    let scratch = Scratch::new();
    let tray = lay_out(&scratch);
    scratch.folder("there");
    lay_out_there(&scratch, "there", &tray);
    let limited = |run: Run| run.by_shell("trap '' XFSZ; ulimit -f 0; exec \"$@\"");
    nothing_is_written(&scratch, "there", limited);
}

/// What is read and may not be: 100 of a file, and of a slot no more than an empty slot.
#[test]
fn files_without_permission() {
    let scratch = Scratch::new();
    let tray = lay_out(&scratch);
    scratch.write("desk", tray.letter(3));
    for name in ["secret", "letter", "desk", "tray/4"] {
        scratch.set_mode(name, 0o000);
    }
    let before = scratch.look();
    let what = told(TOLD);
    scratch.write("held", tray.letter(3));
    for line in [
        format!("cut {what} --stamp 9 secret letters"),
        "show letter".into(),
        format!("store {what} --keeper 3 held letter"),
        format!("store {what} --keeper 3 desk tray/3"),
        format!("fetch {what} --keeper 3 desk out"),
    ] {
        as_anybody(scratch.line(&line)).end().is_trouble();
    }
    let joined = as_anybody(scratch.line(&format!("join {what} tray joined"))).end();
    assert_eq!(joined.status, 0, "{joined:?}");
    assert!(joined.wrote().contains("keeper 3 agrees\nkeeper 4 absent\n"), "{joined:?}");
    let said = joined.said();
    assert_eq!(said.lines().count(), 1, "{said}");
    assert!(said.starts_with("csalgodes: tray/4: "), "{said}");
    assert!(said.contains("counts as an empty slot"), "{said}");
    assert!(scratch.read("joined") == tray.secret);
    scratch.remove("joined");
    scratch.remove("held");
    assert_eq!(scratch.look(), before);
}

/// A folder that is not there, and a file where a folder is looked for.
#[test]
fn no_folder() {
    let scratch = Scratch::new();
    lay_out(&scratch);
    let before = scratch.look();
    let lines: Vec<String> =
        ["nowhere", "secret"].iter().flat_map(|name| writing_to(name)).collect();
    each(&lines, |line| scratch.run(line).is_trouble());
    assert_eq!(scratch.look(), before);
}

/// What cannot be said is not done: nobody has seen it.
#[test]
fn an_output_that_takes_nothing() {
    let scratch = Scratch::new();
    let tray = lay_out(&scratch);
    let before = scratch.look();
    let what = told(TOLD);
    let order = "--order 2,1,8";
    let lines = [
        "show letter".into(),
        format!("fetch {what} --keeper 3 tray/3 -"),
        format!("join {what} tray -"),
        format!("compare {order} tray tray"),
        "help".into(),
        "--help".into(),
        "--version".into(),
        "help cut".into(),
        "join --help".into(),
    ];
    let to_full = |line: &str| scratch.line(line).by_shell("exec \"$@\" >/dev/full").end();
    for line in lines {
        let ended = to_full(&line);
        assert_eq!(ended.status, TROUBLE, "{ended:?}");
        assert_eq!(scratch.look(), before, "{line}");
    }
    // the lines cannot be written; the secret is whole or not there
    let ended = to_full(&format!("join {what} tray joined"));
    assert_eq!(ended.status, TROUBLE, "{ended:?}");
    assert!(!scratch.has("joined") || scratch.read("joined") == tray.secret);
}
