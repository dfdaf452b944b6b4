//! The program `csalgodes` and names of files. Any name works as it is, or is refused as a whole; none is
//! cut short, and none does anything to whoever reads a message. Refused are names that are not UTF-8, since
//! the language's library opens no other.

use std::ffi::{OsStr, OsString};
use std::fs;
use std::os::unix::ffi::{OsStrExt, OsStringExt};
use std::os::unix::fs::symlink;
use std::path::{Path, PathBuf};
use std::process::Command;

use second::cases::Tray;
use second::order::Order;
use second::random::Random;
use second::run::{each, told, Ended, Run, TROUBLE, WRONG_WORDS};
use second::scratch::{names, Scratch};
use second::told::Told;

const TOLD: Told = Told { order: Order { t: 1, f: 0, n: 2 }, key: 9 };

const NAMES: [&[u8]; 20] = [
    b"a name with spaces",
    b" ",
    b"it's a 'name'",
    b"\"quoted\"",
    b"\n",
    b"\n\ncsalgodes: 0: done\n",
    b"tab\tand\rreturn",
    b"\x1b[2J\x1b[31mred",
    b"\x07\x08\x7f",
    b"-name",
    b"--",
    b"--help",
    b"\xff\xfe",
    "k\u{fc}lcs \u{1f511}".as_bytes(),
    b"%s%n%d%%",
    b"$HOME `id` $(id)",
    b"back\\slash\\n",
    b"*?[a-z]",
    b"name.lock",
    b"name.new",
];

fn name(bytes: &[u8]) -> &OsStr {
    OsStr::from_bytes(bytes)
}

fn is_utf_8(name: &OsStr) -> bool {
    name.to_str().is_some()
}

/// The name with more at its end.
fn with(name: &OsStr, more: &str) -> OsString {
    OsString::from_vec([name.as_bytes(), more.as_bytes()].concat())
}

/// Words, and then names after `--`.
fn run(scratch: &Scratch, line: &str, names: &[&Path]) -> Ended {
    let mut run = scratch.line(line).and("--");
    for name in names {
        run = run.and(name);
    }
    run.end()
}

/// A secret goes its whole way by names such as these, and nothing else comes to stand in the folder.
fn plays(name: &OsStr) {
    let random = &Random::new(251);
    let scratch = Scratch::new();
    let secret = random.bytes(30);
    let [key, letters, desk, tray, joined] =
        ["", "l", "d", "t", "j"].map(|more| PathBuf::from(with(name, more)));
    let what = told(TOLD);
    scratch.write(&key, &secret);
    run(&scratch, &format!("cut {what} --stamp 3"), &[&key, &letters]).is_silent();
    scratch.folder(&tray);
    for keeper in ["1", "2"] {
        let desk = PathBuf::from(with(desk.as_os_str(), keeper));
        let at = format!("{what} --keeper {keeper}");
        run(&scratch, &format!("store {at}"), &[&desk, &letters.join(keeper)]).is_silent();
        run(&scratch, &format!("fetch {at}"), &[&desk, &tray.join(keeper)]).is_silent();
    }
    let ended = run(&scratch, &format!("join {what}"), &[&tray, &joined]);
    assert_eq!((ended.status, ended.said().as_str()), (0, ""), "{ended:?}");
    assert!(scratch.read(&joined) == secret);
    let mut names: Vec<OsString> =
        ["", "l", "d1", "d2", "t", "j"].iter().map(|more| with(name, more)).collect();
    names.sort();
    assert_eq!(scratch.names(), names);
}

/// A name that is refused is named, wherever it stands, and nothing is changed.
fn is_refused(name: &OsStr) {
    let scratch = Scratch::new();
    let tray = Tray::cut(TOLD, 1, 10, &Random::new(251));
    let path = Path::new(name);
    scratch.write(path, &tray.secret);
    scratch.write("secret", &tray.secret);
    scratch.write("letter", tray.letter(1));
    scratch.tray("tray", &tray.bytes);
    let (what, before, short) = (told(TOLD), scratch.look(), Path::new);
    let [cut, join] = [format!("cut {what} --stamp 3"), format!("join {what}")];
    let [store, fetch] = ["store", "fetch"].map(|name| format!("{name} {what} --keeper 1"));
    let lines: [(&str, &[&Path]); 9] = [
        (&cut, &[path, short("letters")]),
        (&cut, &[short("secret"), path]),
        (&store, &[path, short("letter")]),
        (&store, &[short("letter"), path]),
        (&fetch, &[path, short("out")]),
        (&fetch, &[short("letter"), path]),
        (&join, &[path, short("out")]),
        (&join, &[short("tray"), path]),
        ("show", &[path]),
    ];
    for (line, names) in lines {
        is_named(&run(&scratch, line, names), name);
        assert_eq!(scratch.look(), before, "{line}");
    }
}

#[test]
fn names_of_any_bytes() {
    each(&NAMES, |bytes| match name(bytes) {
        name if is_utf_8(name) => plays(name),
        name => is_refused(name),
    });
}

/// A name as a message has it.
fn shown(name: &OsStr) -> Vec<u8> {
    let shown = |&byte: &u8| if byte < b' ' || byte == 127 { b'?' } else { byte };
    name.as_bytes().iter().map(shown).collect()
}

/// A message names the file, all of it in one line, with a mark for each control byte.
fn is_named(ended: &Ended, name: &OsStr) {
    ended.is_trouble();
    let name = shown(name);
    let named = ended
        .trouble
        .split(|&byte| byte == b'\n')
        .any(|line| line.windows(name.len()).any(|part| part == name));
    assert!(named, "{:?}: {ended:?}", String::from_utf8_lossy(&name));
}

#[test]
fn names_of_any_bytes_that_are_not_there() {
    each(&NAMES, |bytes| {
        let scratch = Scratch::new();
        let name = name(bytes);
        let path = Path::new(name);
        scratch.write("letter", Tray::cut(TOLD, 1, 10, &Random::new(252)).letter(1));
        let what = told(TOLD);
        let before = scratch.look();
        is_named(&run(&scratch, "show", &[path]), name);
        let cut = format!("cut {what} --stamp 1");
        is_named(&run(&scratch, &cut, &[path, Path::new("letters")]), name);
        is_named(&run(&scratch, &format!("join {what}"), &[path, Path::new("out")]), name);
        let letter = Path::new("letter");
        is_named(
            &run(&scratch, &format!("fetch {what} --keeper 1"), &[letter, &path.join("out")]),
            name,
        );
        assert_eq!(scratch.look(), before);
    });
}

/// A slot that is not there, in a tray of any name, has a line of its own and no more than that.
#[test]
fn trays_of_any_name() {
    each(&NAMES, |bytes| {
        let scratch = Scratch::new();
        let tray = Tray::cut(TOLD, 1, 10, &Random::new(252));
        let path = Path::new(name(bytes));
        scratch.tray(path, &tray.bytes);
        scratch.remove(path.join("2"));
        let ended = run(&scratch, &format!("join {}", told(TOLD)), &[path, Path::new("out")]);
        if !is_utf_8(name(bytes)) {
            return is_named(&ended, name(bytes));
        }
        ended.answers(6);
        let slot = shown(path.join("2").as_os_str());
        let line =
            [b"csalgodes: ", slot.as_slice(), b": is not there, and counts as an empty slot\n"]
                .concat();
        assert!(ended.trouble.starts_with(&line), "{ended:?}");
        assert_eq!(ended.said().lines().count(), 2, "{ended:?}");
    });
}

/// A wrong word of any bytes is shown in the same way.
#[test]
fn wrong_words_of_any_bytes() {
    each(&NAMES, |bytes| {
        let scratch = Scratch::new();
        for words in [
            vec!["show".into(), "one".into(), "--".into(), name(bytes).into()],
            vec![name(bytes).into()],
        ] {
            if words == ["--help"] {
                continue;
            }
            let ended = Run::new(scratch.path(), words).end();
            assert_eq!(ended.status, WRONG_WORDS, "{ended:?}");
            let name = shown(name(bytes));
            assert!(ended.trouble.windows(name.len()).any(|part| part == name), "{ended:?}");
        }
    });
}

/// The longest path that the system takes.
const LONGEST: usize = 4095;

/// The bytes of the last name in a long path. What the program makes beside it has a few more, and fits.
const LAST: usize = 200;

/// A folder so deep that the path of a name in it has a given length. It holds a secret, a letter and a tray
/// of its letters, and so does the folder that it is in.
struct Deep {
    scratch: Scratch,
    path: PathBuf,
    tray: Tray,
}

/// A path of folders of this length, which ends with a slash.
fn folders(length: usize) -> String {
    let mut path = String::new();
    while path.len() < length {
        // what is left at the end makes two names, neither of which is empty or too long
        let step = match length - path.len() {
            left @ 0..=200 => left,
            left @ 201..=400 => left / 2,
            _ => 200,
        };
        path += &"d".repeat(step - 1);
        path.push('/');
    }
    path
}

impl Deep {
    fn new(length: usize) -> Deep {
        let scratch = Scratch::new();
        let path = folders(length - LAST);
        // this goes down one step at a time, since the whole path from the root may be too long
        let made = Command::new("mkdir").args(["-p", &path]).current_dir(scratch.path()).status();
        assert!(made.expect("a tool of the system's").success());
        symlink(&path, scratch.at("short")).expect("a link");
        let tray = Tray::cut(TOLD, 4, 30, &Random::new(253));
        let deep = Deep { scratch, path: path.into(), tray };
        let Deep { scratch, tray, .. } = &deep;
        for name in [|front| PathBuf::from(front), by_short_way] as [fn(&str) -> PathBuf; 2] {
            scratch.write(name("secret"), &tray.secret);
            scratch.write(name("letter"), tray.letter(1));
            scratch.tray(name("tray"), &tray.bytes);
        }
        deep
    }

    /// The path by which the program is told a name.
    fn long(&self, front: &str) -> PathBuf {
        self.path.join(last(front))
    }

    /// What the program says to a command of these two names.
    fn run(&self, line: &str, names: [&Path; 2]) -> Ended {
        run(&self.scratch, line, &names)
    }

    /// What a long path leads to is read as by any other.
    fn is_read(&self) {
        let (what, short) = (told(TOLD), Path::new);
        let at_desk = format!("{what} --keeper 1");
        let [secret, letter] = ["secret", "letter"].map(|front| self.long(front));
        self.run(&format!("cut {what} --stamp 1"), [&secret, short("letters")]).is_silent();
        self.run(&format!("store {at_desk}"), [short("desk"), &letter]).is_silent();
        self.run(&format!("fetch {at_desk}"), [&letter, short("fetched")]).is_silent();
        let shown = run(&self.scratch, "show", &[&letter]);
        shown.writes("order 1,0,2 key 9 keeper 1 stamp 4 length 30\n");
    }

    /// The paths of the slots are longer than the tray's own. They are read, or there is trouble, or each is
    /// said to count as empty.
    fn is_read_as_a_tray(&self) -> bool {
        let ended =
            self.run(&format!("join {}", told(TOLD)), [&self.long("tray"), Path::new("joined")]);
        match ended.status {
            0 => assert!(self.scratch.read("joined") == self.tray.secret),
            6 => assert_eq!(ended.said().matches("counts as an empty slot").count(), 2),
            _ => ended.is_trouble(),
        }
        assert_eq!(self.scratch.has("joined"), ended.status == 0);
        ended.status == 0
    }

    /// What is made beside a file, and the lock, have longer paths than the file. It is made, or there is
    /// trouble and nothing is made.
    fn is_made(&self, ended: Ended, is_right: impl Fn(PathBuf) -> bool) -> bool {
        if ended.status == 0 {
            assert!(is_right(by_short_way("made")), "{ended:?}");
            self.scratch.remove(by_short_way("made"));
        } else {
            ended.is_trouble();
        }
        let there = names(&self.scratch.at("short"));
        assert_eq!(there, ["letter", "secret", "tray"].map(|front| OsString::from(last(front))));
        ended.status == 0
    }

    /// Whether a desk, a letter, a secret and a folder of letters can be made.
    fn are_made(&self) -> [bool; 4] {
        let Deep { scratch, tray, .. } = self;
        let (what, short, made) = (told(TOLD), Path::new, &self.long("made"));
        let at_desk = format!("{what} --keeper 1");
        let stored = self.run(&format!("store {at_desk}"), [made, short("letter")]);
        let stored = self.is_made(stored, |path| scratch.read(path) == tray.letter(1));
        let fetched = self.run(&format!("fetch {at_desk}"), [short("letter"), made]);
        let fetched = self.is_made(fetched, |path| scratch.read(path) == tray.letter(1));
        let joined = self.run(&format!("join {what}"), [short("tray"), made]);
        let joined = self.is_made(joined, |path| scratch.read(path) == tray.secret);
        let cut = self.run(&format!("cut {what} --stamp 1"), [short("secret"), made]);
        let cut = self.is_made(cut, |path| scratch.slots(path, 2).len() == tray.bytes.len());
        [stored, fetched, joined, cut]
    }
}

/// A name that is filled up to its length.
fn last(front: &str) -> String {
    front.to_owned() + &"x".repeat(LAST - front.len())
}

/// The path by which the test itself gets there.
fn by_short_way(front: &str) -> PathBuf {
    Path::new("short").join(last(front))
}

/// Paths as long as the system takes. What the program needs beside a name may be too much for it.
#[test]
fn the_longest_paths() {
    each(&[4000, LONGEST - 11, LONGEST - 10, LONGEST - 4, LONGEST - 1, LONGEST], |&length| {
        let deep = Deep::new(length);
        assert_eq!(deep.long("made").as_os_str().len(), length);
        deep.is_read();
        let read = deep.is_read_as_a_tray();
        let made = deep.are_made();
        println!("{length} bytes: tray {read}, desk, letter, secret, folder {made:?}");
        assert!(length > 4000 || read && made == [true; 4]);
    });
}

/// Paths that are too long for the system, or for the program, at every place where a name can stand.
#[test]
fn paths_that_are_too_long() {
    let scratch = Scratch::new();
    let tray = Tray::cut(TOLD, 4, 30, &Random::new(254));
    scratch.write("secret", &tray.secret);
    scratch.write("letter", tray.letter(1));
    scratch.tray("tray", &tray.bytes);
    let before = scratch.look();
    let (what, short) = (told(TOLD), Path::new);
    let [cut, join] = [format!("cut {what} --stamp 1"), format!("join {what}")];
    let [store, fetch] = ["store", "fetch"].map(|name| format!("{name} {what} --keeper 1"));
    for length in [4096, 4097, 5000, 100_000] {
        let [secret, letter, slots, made] =
            ["secret", "letter", "tray", "made"].map(|name| of_length(length, name));
        let lines: [(&str, &[&Path]); 10] = [
            (&cut, &[&secret, short("made")]),
            (&cut, &[short("secret"), &made]),
            (&store, &[short("made"), &letter]),
            (&store, &[&letter, short("letter")]),
            (&fetch, &[&letter, short("made")]),
            (&fetch, &[short("letter"), &made]),
            (&join, &[&slots, short("made")]),
            (&join, &[short("tray"), &made]),
            ("compare --order 1,0,2", &[short("tray"), &slots]),
            ("show", &[&letter]),
        ];
        each(&lines, |(line, names)| {
            let ended = run(&scratch, line, names);
            let status = if length > 4096 { WRONG_WORDS } else { TROUBLE };
            assert_eq!(ended.status, status, "{length} bytes: {ended:?}");
            assert!(!ended.trouble.is_empty());
        });
        assert_eq!(scratch.look(), before);
    }
}

/// A path of this length. Cut short to what the system takes, it would lead to this name.
fn of_length(length: usize, name: &str) -> PathBuf {
    let front = LONGEST - name.len();
    let good = "./".repeat(front / 2) + &"/".repeat(front % 2) + name;
    PathBuf::from(good + &"x".repeat(length - LONGEST))
}

/// A name of 255 bytes is the longest that a folder takes, and what the program makes beside it has more.
#[test]
fn the_longest_names() {
    let random = &Random::new(255);
    let tray = Tray::cut(TOLD, 4, 30, random);
    each(&[240, 244, 245, 250, 251, 252, 255, 256], |&length| {
        let scratch = Scratch::new();
        scratch.write("letter", tray.letter(1));
        scratch.write("secret", &tray.secret);
        scratch.tray("tray", &tray.bytes);
        let made = "n".repeat(length);
        let before = scratch.look();
        let what = told(TOLD);
        for line in [
            format!("store {what} --keeper 1 {made} letter"),
            format!("fetch {what} --keeper 1 letter {made}"),
            format!("join {what} tray {made}"),
            format!("cut {what} --stamp 1 secret {made}"),
        ] {
            let ended = scratch.run(&line);
            if ended.status == 0 {
                assert!(scratch.has(&made), "{ended:?}");
                scratch.remove(&made);
            } else {
                ended.is_trouble();
                assert!(length > 244, "{ended:?}");
            }
            assert_eq!(scratch.look(), before, "{ended:?}");
        }
    });
}

/// A file of the name `-` is found by another way to say it.
#[test]
fn a_dash_as_a_name() {
    let scratch = Scratch::new();
    let tray = Tray::cut(TOLD, 4, 30, &Random::new(256));
    fs::create_dir(scratch.at("folder")).expect("a folder");
    scratch.write("-", tray.letter(1));
    scratch.run(&format!("store {} --keeper 1 folder/- ./-", told(TOLD))).is_silent();
    scratch.run(&format!("fetch {} --keeper 1 ./- ./folder/out", told(TOLD))).is_silent();
    assert!(
        scratch.read("folder/-") == tray.letter(1) && scratch.read("folder/out") == tray.letter(1)
    );
}
