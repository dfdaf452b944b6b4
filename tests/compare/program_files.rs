//! The program `csalgodes` and the files that it makes: nothing is written over that was not to be, what is
//! made is its owner's alone, and standard input, output and error harm nothing, open or closed.

use std::fs;
use std::io::Write;
use std::os::unix::fs::{chown, symlink, MetadataExt};
use std::process::{Command, Stdio};

use second::cases::Tray;
use second::join::join;
use second::letter::Letter;
use second::order::Order;
use second::peer::program;
use second::planted::is_root;
use second::random::Random;
use second::report::report;
use second::run::{each, told, Run, TROUBLE};
use second::scratch::{names, Scratch};
use second::told::Told;

const TOLD: Told = Told { order: Order { t: 2, f: 1, n: 8 }, key: 100 };

/// A secret, its letters as a tray, a desk that holds keeper 3's, and two newer letters of that keeper's.
struct Table {
    scratch: Scratch,
    tray: Tray,
}

impl Table {
    fn new() -> Table {
        let random = &Random::new(261);
        let scratch = Scratch::new();
        let tray = Tray::cut(TOLD, 5, 32, random);
        scratch.write("secret", &tray.secret);
        scratch.tray("tray", &tray.bytes);
        scratch.write("desk", tray.letter(3));
        scratch.write("letter", Tray::cut(TOLD, 6, 32, random).letter(3));
        scratch.write("older", Tray::cut(TOLD, 4, 32, random).letter(3));
        Table { scratch, tray }
    }

    /// The lines that a join of this tray writes.
    fn joined_lines(&self) -> String {
        let input = [&[2, 1, 8, 100], self.tray.bytes.as_slice()].concat();
        String::from_utf8(report(&input)).expect("the report is text") + "trials 1\n"
    }

    /// The folder has a letter of every keeper and nothing else, and they join to the secret.
    fn are_letters(&self, folder: &str, stamp: u32) {
        let scratch = &self.scratch;
        assert_eq!(names(&scratch.at(folder)).len(), 8);
        let mut secret = vec![0; 32];
        let joined = join(TOLD, stamp, 32, &scratch.slots(folder, 8), &mut secret);
        assert_eq!((joined.number, joined.usable), (0, 8));
        assert!(secret == self.tray.secret);
    }
}

fn cut(secret: &str, folder: &str) -> String {
    format!("cut {} --stamp 7 {secret} {folder}", told(TOLD))
}

fn store(desk: &str, letter: &str) -> String {
    format!("store {} --keeper 3 {desk} {letter}", told(TOLD))
}

fn fetch(options: &str, desk: &str, letter: &str) -> String {
    format!("fetch {} --keeper 3 {options} {desk} {letter}", told(TOLD))
}

fn joining(options: &str, tray: &str, secret: &str) -> String {
    format!("join {} {options} {tray} {secret}", told(TOLD))
}

#[test]
fn what_is_there_stays() {
    let Table { scratch, .. } = &Table::new();
    scratch.write("out", b"what was there");
    scratch.folder("full");
    scratch.write("full/.hidden", b"");
    scratch.folder("fuller");
    scratch.folder("fuller/folder");
    let before = scratch.look();
    let lines = [
        fetch("", "desk", "out"),
        joining("", "tray", "out"),
        fetch("", "desk", "desk"),
        joining("", "tray", "tray/1"),
        cut("secret", "full"),
        cut("secret", "fuller"),
        cut("secret", "tray"),
        cut("secret", "secret"),
        cut("secret", "letter"),
        cut("secret", "."),
        cut("secret", "./"),
        cut("secret", "/"),
    ];
    each(&lines, |line| scratch.run(line).is_trouble());
    assert_eq!(scratch.look(), before);
}

/// What is there is seen before any other work: no slot is read, and no desk is judged.
#[test]
fn what_is_there_is_seen_first() {
    let Table { scratch, .. } = &Table::new();
    scratch.write("out", b"what was there");
    scratch.folder("empty");
    let before = scratch.look();
    for line in [fetch("", "no-desk", "out"), joining("", "empty", "out")] {
        let ended = scratch.run(&line);
        ended.is_trouble();
        assert!(ended.text.is_empty() && ended.said().contains("out"), "{ended:?}");
        assert!(!ended.said().contains("empty slot"), "{ended:?}");
    }
    assert_eq!(scratch.look(), before);
}

/// The folder that a cut makes first has a name of its own, and may be the secret's.
#[test]
fn a_secret_at_the_new_folder() {
    let Table { scratch, .. } = &Table::new();
    fs::rename(scratch.at("secret"), scratch.at("letters.new")).expect("another name");
    let before = scratch.look();
    scratch.run(&cut("letters.new", "letters")).is_trouble();
    assert_eq!(scratch.look(), before);
}

#[test]
fn what_is_there_is_replaced_if_asked() {
    let Table { scratch, tray } = &Table::new();
    for line in [fetch("--replace", "desk", "out"), joining("--replace", "tray", "out")] {
        let expected = if line.starts_with("fetch") { tray.letter(3) } else { &tray.secret };
        for there in [&b"what was there"[..], &[7; 100_000], b""] {
            scratch.write("out", there);
            scratch.set_mode("out", 0o644);
            assert_eq!(scratch.run(&line).status, 0);
            assert!(scratch.read("out") == expected, "{line}");
            assert_eq!(scratch.mode("out"), 0o600, "{line}");
        }
        scratch.remove("out");
        assert_eq!(scratch.run(&line).status, 0);
        assert!(scratch.read("out") == expected, "{line}");
        scratch.remove("out");
    }
    scratch.holds(&["desk", "letter", "older", "secret", "tray"]);
}

/// Another name of a file that is replaced has the old bytes: nothing was written through.
#[test]
fn another_name_of_what_is_replaced() {
    let Table { scratch, .. } = &Table::new();
    let held = scratch.read("desk");
    for (name, line) in [
        ("desk", store("desk", "letter")),
        ("out", fetch("--replace", "desk", "out")),
        ("out", joining("--replace", "tray", "out")),
    ] {
        scratch.write("out", &held);
        fs::hard_link(scratch.at(name), scratch.at("another")).expect("another name");
        assert_eq!(scratch.run(&line).status, 0);
        assert!(scratch.read("another") == held, "{line}");
        scratch.remove("another");
    }
}

/// What is refused with a number leaves what is there, whatever may be replaced.
#[test]
fn a_refusal_replaces_nothing() {
    let Table { scratch, .. } = &Table::new();
    scratch.write("out", b"what was there");
    scratch.write("empty-desk", &[0; 2048]);
    scratch.folder("empty-tray");
    let before = scratch.look();
    scratch.run(&fetch("--replace", "empty-desk", "out")).answers(17);
    scratch.run(&fetch("--replace", "no-desk", "out")).answers(17);
    scratch.run(&joining("--replace", "empty-tray", "out")).answers(6);
    scratch.run(&store("desk", "older")).answers(14);
    assert_eq!(scratch.look(), before);
}

/// The letter that a desk holds already is no change.
#[test]
fn a_desk_offered_to_itself() {
    let Table { scratch, tray } = &Table::new();
    scratch.run(&store("desk", "desk")).is_silent();
    assert!(scratch.read("desk") == tray.letter(3));
    scratch.run(&fetch("--replace", "desk", "desk"));
    assert!(scratch.read("desk") == tray.letter(3));
    scratch.holds(&["desk", "letter", "older", "secret", "tray"]);
}

/// An empty folder is taken, and then has the letters.
#[test]
fn an_empty_folder_is_filled() {
    let table = Table::new();
    let Table { scratch, .. } = &table;
    scratch.folder("letters");
    scratch.run(&cut("secret", "letters")).is_silent();
    table.are_letters("letters", 7);
    assert_eq!(scratch.mode("letters"), 0o700);
    scratch.holds(&["desk", "letter", "letters", "older", "secret", "tray"]);
}

/// Other ways to say where a folder is: it is made there, or nothing is.
#[test]
fn folders_said_in_other_ways() {
    for (there, said) in
        [("", "letters/"), ("letters", "letters/"), ("letters", "letters/."), ("", "./letters//")]
    {
        let table = Table::new();
        let Table { scratch, .. } = &table;
        if !there.is_empty() {
            scratch.folder(there);
        }
        let before = scratch.look();
        let ended = scratch.run(&cut("secret", said));
        if ended.status == 0 {
            ended.is_silent();
            table.are_letters("letters", 7);
            scratch.remove("letters");
            scratch.holds(&["desk", "letter", "older", "secret", "tray"]);
        } else {
            ended.is_trouble();
            assert_eq!(scratch.look(), before, "{ended:?}");
        }
    }
}

/// A folder on the way may be a link: it is what stands at its end that is judged.
#[test]
fn folders_by_links() {
    let table = Table::new();
    let Table { scratch, tray } = &table;
    scratch.folder("folder");
    symlink("folder", scratch.at("way")).expect("a link");
    scratch.run(&store("way/desk", "letter")).is_silent();
    scratch.run(&fetch("", "way/desk", "way/fetched")).is_silent();
    assert_eq!(scratch.run(&joining("", "tray", "way/joined")).status, 0);
    scratch.run(&cut("secret", "way/letters")).is_silent();
    assert!(scratch.read("folder/fetched") == scratch.read("letter"));
    assert!(scratch.read("folder/joined") == tray.secret);
    table.are_letters("folder/letters", 7);
    assert_eq!(names(&scratch.at("folder")), ["desk", "fetched", "joined", "letters"]);
}

/// Two cuts of one secret have no letter in common: their random words differ.
#[test]
fn two_cuts_differ() {
    let table = Table::new();
    let Table { scratch, .. } = &table;
    scratch.run(&cut("secret", "one")).is_silent();
    scratch.run(&cut("secret", "two")).is_silent();
    table.are_letters("one", 7);
    table.are_letters("two", 7);
    for keeper in 1..=8 {
        let [one, two] = ["one", "two"].map(|folder| scratch.read(format!("{folder}/{keeper}")));
        assert!(one != two, "keeper {keeper}");
    }
}

/// Random words are of every value alike, 256 too. Where the secret is zeros and t is 1, keeper 1's share
/// words are the random words.
#[test]
fn random_words() {
    let scratch = Scratch::new();
    scratch.write("zeros", &[0; 952]);
    let mut counts = [0_u32; 257];
    for round in 0..12 {
        let line = format!("cut --order 1,0,2 --key 0 --stamp 1 zeros letters-{round}");
        scratch.run(&line).is_silent();
        let letter = Letter::read(&scratch.read(format!("letters-{round}/1"))).expect("a good one");
        letter.shares.iter().for_each(|&word| counts[word as usize] += 1);
    }
    let expected = 12.0 * 952.0 / 257.0;
    let far: f64 =
        counts.iter().map(|&count| (f64::from(count) - expected).powi(2) / expected).sum();
    println!("{far:.0}, which is about 256 where all are alike");
    assert!(counts.iter().all(|&count| count > 0), "{counts:?}");
    // so far off it is not once in 10^12 runs
    assert!(far < 450.0, "{counts:?}");
}

/// Whatever the mask says, what is made is its owner's alone, and its owner may read and write it.
#[test]
fn modes_under_any_mask() {
    each(&["000", "022", "077", "0177"], |mask| {
        let table = Table::new();
        let Table { scratch, .. } = &table;
        let masked = |line: &str| {
            let ended = scratch.line(line).by_shell(&format!("umask {mask}; exec \"$@\"")).end();
            assert_eq!(ended.status, 0, "{ended:?}");
        };
        masked(&cut("secret", "letters"));
        masked(&store("desk", "letter"));
        masked(&store("new-desk", "letter"));
        masked(&fetch("", "desk", "fetched"));
        masked(&joining("", "tray", "joined"));
        assert_eq!(scratch.mode("letters"), 0o700, "mask {mask}");
        for name in ["letters/1", "letters/8", "desk", "new-desk", "fetched", "joined"] {
            assert_eq!(scratch.mode(name), 0o600, "{name}, mask {mask}");
        }
    });
}

/// A desk keeps its owner, whoever may store there; others may not read it, even if they could before.
#[test]
fn the_owner_of_a_desk() {
    let Table { scratch, .. } = &Table::new();
    scratch.set_mode("desk", 0o666);
    if is_root() {
        chown(scratch.at("desk"), Some(12_345), Some(23_456)).expect("root may");
    }
    let owner = |name| {
        let data = fs::metadata(scratch.at(name)).expect("it is there");
        (data.uid(), data.gid())
    };
    let before = owner("desk");
    scratch.run(&store("desk", "letter")).is_silent();
    assert_eq!((owner("desk"), scratch.mode("desk")), (before, 0o600));
}

/// Who may not give a file to the desk's owner has trouble, and leaves the desk as it is.
#[test]
fn a_desk_of_somebody_else() {
    if !is_root() {
        return println!("left out: a desk of somebody else, which only root can make");
    }
    let Table { scratch, .. } = &Table::new();
    chown(scratch.at("desk"), Some(12_345), Some(23_456)).expect("root may");
    let before = scratch.look();
    let line = store("desk", "letter");
    scratch.line(&line).by(&["setpriv", "--bounding-set=-chown"]).end().is_trouble();
    assert_eq!(scratch.look(), before);
}

#[test]
fn standard_input_and_output_as_files() {
    let table = Table::new();
    let Table { scratch, tray } = &table;
    scratch.line(&cut("-", "letters")).given(&tray.secret).end().is_silent();
    table.are_letters("letters", 7);
    let line = "order 2,1,8 key 100 keeper 3 stamp 6 length 32\n";
    let letter = scratch.read("letter");
    scratch.line("show -").given(&letter).end().writes(line);
    let fetched = scratch.run(&fetch("", "desk", "-"));
    assert_eq!((fetched.status, fetched.said().as_str()), (0, ""));
    assert!(fetched.text == tray.letter(3));
    scratch.line(&store("desk", "-")).given(&letter).end().is_silent();
    assert!(scratch.read("desk") == letter);
    // the lines give way to the secret
    let joined = scratch.run(&joining("", "tray", "-"));
    assert_eq!((joined.status, joined.said()), (0, table.joined_lines()));
    assert!(joined.text == tray.secret);
    scratch.holds(&["desk", "letter", "letters", "older", "secret", "tray"]);
}

/// What comes in pieces is taken whole, and what is too long or too short is judged as a file is.
#[test]
fn standard_input_of_any_size() {
    let table = Table::new();
    let Table { scratch, tray } = &table;
    let in_pieces = scratch
        .line(&cut("-", "letters"))
        .by_shell("(head -c 5 secret; sleep 0.2; tail -c +6 secret) | \"$@\"");
    in_pieces.end().is_silent();
    table.are_letters("letters", 7);
    for (size, number) in [(0, 2), (952, 0), (953, 2), (100_000, 2)] {
        let ended =
            scratch.line(&cut("-", &format!("letters-{size}"))).given(&vec![65; size]).end();
        assert_eq!(ended.status, number, "{ended:?}");
    }
    for size in [0, 1, 2047, 2049, 100_000] {
        scratch.line("show -").given(&vec![0; size]).end().answers(4);
        scratch.line(&store("desk", "-")).given(&vec![0; size]).end().answers(4);
    }
    assert!(scratch.read("desk") == tray.letter(3));
}

const CLOSED: [&str; 7] = ["<&-", ">&-", "2>&-", "<&- >&-", "<&- 2>&-", ">&- 2>&-", "<&- >&- 2>&-"];

fn closed(run: Run, which: &str) -> Run {
    run.by_shell(&format!("exec \"$@\" {which}"))
}

/// A file that is opened must not take the place of standard output or error, or what is said would go
/// into it. Whatever is closed, the files have what they must, and nothing else is there.
#[test]
fn closed_at_the_start() {
    each(&CLOSED, |which| {
        let table = Table::new();
        let Table { scratch, tray } = &table;
        let ends = |line: &str, status| {
            let ended = closed(scratch.line(line), which).end();
            assert_eq!(ended.status, status, "{which}: {ended:?}");
        };
        ends(&cut("secret", "letters"), 0);
        table.are_letters("letters", 7);
        ends(&store("desk", "letter"), 0);
        assert!(scratch.read("desk") == scratch.read("letter"), "{which}");
        ends(&store("desk", "older"), 14);
        assert!(scratch.read("desk") == scratch.read("letter"), "{which}");
        ends(&store("new-desk", "older"), 0);
        assert!(scratch.read("new-desk") == scratch.read("older"), "{which}");
        ends(&fetch("", "new-desk", "fetched"), 0);
        assert!(scratch.read("fetched") == scratch.read("older"), "{which}");
        ends("show", 101);
        ends(&fetch("", "nowhere", "nothing"), 17);
        // its lines may have nowhere to go; the secret has no part of them
        let ended = closed(scratch.line(&joining("", "tray", "joined")), which).end();
        let status = if which.split(' ').any(|one| one == ">&-") { TROUBLE } else { 0 };
        assert!([0, status].contains(&ended.status), "{which}: {ended:?}");
        assert!(scratch.has("joined") || ended.status != 0, "{which}: {ended:?}");
        assert!(!scratch.has("joined") || scratch.read("joined") == tray.secret, "{which}");
        let names = ["desk", "fetched", "letter", "letters", "new-desk", "older", "secret", "tray"];
        let joined = if scratch.has("joined") { &["joined"][..] } else { &[] };
        scratch.holds(&[&names[..], joined].concat());
    });
}

/// `-` where it is closed: nothing can be read, and nothing is made of it.
#[test]
fn a_closed_file_is_read_or_written() {
    let Table { scratch, .. } = &Table::new();
    let before = scratch.look();
    for line in [cut("-", "letters"), "show -".into(), store("desk", "-")] {
        for which in ["<&-", "<&- >&-", "<&- >&- 2>&-"] {
            let ended = closed(scratch.line(&line), which).end();
            assert!([TROUBLE, 2, 4].contains(&ended.status), "{which}: {ended:?}");
        }
    }
    for line in
        [fetch("", "desk", "-"), joining("", "tray", "-"), "show desk".into(), "help".into()]
    {
        for which in [">&-", "<&- >&-", "<&- >&- 2>&-"] {
            let ended = closed(scratch.line(&line), which).end();
            assert_eq!(ended.status, TROUBLE, "{which}: {ended:?}");
        }
    }
    assert_eq!(scratch.look(), before);
}

/// Nobody reads what is written: that is no success, and nothing is left behind.
#[test]
fn a_pipe_that_nobody_reads() {
    let Table { scratch, .. } = &Table::new();
    let before = scratch.look();
    for line in [fetch("", "desk", "-"), joining("", "tray", "-"), "show -".into()] {
        let csalgodes = program("programs/csalgodes");
        let mut command = Command::new(csalgodes.get_program());
        command.args(csalgodes.get_args()).args(line.split_whitespace());
        command.current_dir(scratch.path());
        command.stdin(Stdio::piped()).stdout(Stdio::piped()).stderr(Stdio::null());
        let mut process = command.spawn().expect("the gate builds the program and what runs it");
        drop(process.stdout.take());
        let mut pipe = process.stdin.take().expect("it was asked for");
        // those that do not read may have ended by now
        let _ = pipe.write_all(&scratch.read("letter"));
        drop(pipe);
        let status = process.wait().expect("the program ends");
        assert_ne!(status.code(), Some(0), "{line}");
    }
    assert_eq!(scratch.look(), before);
}
