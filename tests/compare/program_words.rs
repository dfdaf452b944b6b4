//! The program `csalgodes` and its words. Wrong ones are named, with the way to help, and nothing is read or
//! written; help is no trouble.

use std::ffi::OsString;

use second::cases::Tray;
use second::moving::Move;
use second::order::Order;
use second::random::Random;
use second::run::{each, Run, WRONG_WORDS};
use second::scratch::Scratch;
use second::told::Told;

/// A command, its options that take a value, with a right one each, and its names.
struct Command {
    name: &'static str,
    options: &'static [(&'static str, &'static str)],
    /// One that need not be there, and takes no value.
    bare: Option<&'static str>,
    names: &'static [&'static str],
}

const FROM: (&str, &str) = ("--from", "1,1,6");
const ORDER: (&str, &str) = ("--order", "1,1,6");
const KEY: (&str, &str) = ("--key", "9");
const STAMP: (&str, &str) = ("--stamp", "5");
const NEW_STAMP: (&str, &str) = ("--stamp", "6");
const KEEPERS: (&str, &str) = ("--keepers", "2,3");
const KEEPER: (&str, &str) = ("--keeper", "2");
const LENGTH: (&str, &str) = ("--length", "60");

/// With the words that stand here each of them is done, in the folder that is laid out below.
const COMMANDS: [Command; 9] = [
    Command {
        name: "cut",
        options: &[ORDER, KEY, STAMP],
        bare: None,
        names: &["secret", "letters"],
    },
    Command { name: "show", options: &[], bare: None, names: &["letter"] },
    Command {
        name: "store",
        options: &[ORDER, KEY, KEEPER],
        bare: None,
        names: &["desk", "letter"],
    },
    Command {
        name: "fetch",
        options: &[ORDER, KEY, KEEPER],
        bare: Some("--replace"),
        names: &["held", "out"],
    },
    Command {
        name: "join",
        options: &[ORDER, KEY, STAMP, LENGTH],
        bare: Some("--replace"),
        names: &["tray", "joined"],
    },
    Command { name: "compare", options: &[ORDER], bare: None, names: &["tray", "tray"] },
    Command {
        name: "move-cut",
        options: &[FROM, ORDER, KEY, LENGTH, NEW_STAMP, KEEPER],
        bare: None,
        names: &["letter", "cut"],
    },
    Command {
        name: "move-weigh",
        options: &[FROM, ORDER, KEY, LENGTH, NEW_STAMP, KEEPERS, KEEPER],
        bare: Some("--replace"),
        names: &["sent", "moved"],
    },
    Command {
        name: "move-check",
        options: &[FROM, ORDER, KEY],
        bare: None,
        names: &["tray", "tray"],
    },
];

/// Every option, and those that take no value.
const OPTIONS: [&str; 8] =
    ["--from", "--order", "--key", "--stamp", "--keepers", "--keeper", "--length", "--replace"];
const BARE: [&str; 1] = ["--replace"];

const NO_NUMBERS: [&str; 15] = [
    "",
    "x",
    "-1",
    "+1",
    "1 ",
    " 1",
    "0x1",
    "1,0",
    "1.0",
    "1e1",
    "4294967296",
    "00000000001",
    "18446744073709551617",
    "340282366920938463463374607431768211457",
    "\u{661}",
];

const NO_ORDERS: [&str; 16] = [
    "",
    "2",
    "2,1",
    "2,1,",
    ",1,8",
    "2,1,8,",
    "2,1,8,9",
    "2,,8",
    "2;1;8",
    "2 1 8",
    "2, 1,8",
    " 2,1,8",
    "-2,1,8",
    "x,1,8",
    "4294967297,1,8",
    "2,1,18446744073709551624",
];

/// From one number to eight are a list.
const NO_LISTS: [&str; 13] = [
    "",
    ",",
    "2,",
    ",2",
    "2,,3",
    "2 3",
    "2, 3",
    "2;3",
    "-2,3",
    "x,3",
    "2,4294967296",
    "2,00000000003",
    "1,2,3,4,5,6,7,8,9",
];

const TOLD: Told = Told { order: Order { t: 1, f: 1, n: 6 }, key: 9 };

/// The sub-letters of keepers 2 and 3 for keeper 2, in a folder.
fn send(scratch: &Scratch, tray: &Tray, random: &Random) {
    scratch.folder("sent");
    let told = Move { old: TOLD.order, new: TOLD, length: 60, stamp: 6 };
    for keeper in [2, 3] {
        let mut cut = vec![0; TOLD.order.tray()];
        let answer = told.cut(keeper, tray.letter(keeper), &random.words(60), &mut cut);
        assert_eq!(answer.number, 0);
        scratch.write(format!("sent/{keeper}"), &cut[2048..4096]);
    }
}

fn lay_out() -> Scratch {
    let random = &Random::new(241);
    let scratch = Scratch::new();
    let tray = Tray::cut(TOLD, 5, 60, random);
    send(&scratch, &tray, random);
    scratch.write("secret", &tray.secret);
    scratch.tray("tray", &tray.bytes);
    scratch.write("letter", tray.letter(2));
    scratch.write("held", tray.letter(2));
    scratch
}

impl Command {
    /// The words of the command with these options.
    fn words(&self, options: &[(&str, &str)]) -> Vec<String> {
        let options = options.iter().flat_map(|&(option, value)| [option, value]);
        [self.name]
            .into_iter()
            .chain(options)
            .chain(self.names.iter().copied())
            .map(String::from)
            .collect()
    }

    fn right_words(&self) -> Vec<String> {
        self.words(self.options)
    }

    /// Without the option at this place.
    fn words_without(&self, left_out: usize) -> Vec<String> {
        let mut options = self.options.to_vec();
        options.remove(left_out);
        self.words(&options)
    }

    /// With another value for the option at this place.
    fn words_with(&self, changed: usize, value: &str) -> Vec<String> {
        let mut words = self.right_words();
        words[2 + 2 * changed] = value.into();
        words
    }

    fn all_options(&self) -> Vec<&str> {
        self.options.iter().map(|&(option, _)| option).chain(self.bare).collect()
    }
}

/// Words that are wrong, and what of them must stand in the message: one of these.
struct Wrong {
    command: &'static str,
    words: Vec<String>,
    named: Vec<String>,
}

impl Wrong {
    /// A word that is there and wrong is named in quotes.
    fn new(command: &Command, words: Vec<String>, wrong: &[&str]) -> Wrong {
        let named = wrong.iter().map(|word| format!("'{word}'")).collect();
        Wrong { command: command.name, words, named }
    }

    /// A word that is not there.
    fn missing(command: &Command, words: Vec<String>, missing: &[&str]) -> Wrong {
        let named = missing.iter().copied().map(String::from).collect();
        Wrong { command: command.name, words, named }
    }
}

/// Each is refused, the word is named, and so is the help of the command. Nothing is made or changed.
fn are_refused(all: &[Wrong]) {
    assert!(!all.is_empty());
    let scratch = lay_out();
    let before = scratch.look();
    each(all, |wrong| {
        let words = wrong.words.iter().map(OsString::from).collect();
        let ended = Run::new(scratch.path(), words).end();
        ended.blames_words_of(wrong.command);
        let (named, said) = (&wrong.named, ended.said());
        let is_named = named.is_empty() || named.iter().any(|word| said.contains(word));
        assert!(is_named, "{named:?}: {ended:?}");
    });
    assert_eq!(scratch.look(), before);
}

/// What the wrong words below differ from is right.
#[test]
fn right_words() {
    for command in &COMMANDS {
        let scratch = lay_out();
        let words = command.right_words().join(" ");
        let ended = scratch.run(&words);
        assert_eq!(ended.status, 0, "{ended:?}");
    }
}

/// Options and names may be mixed in any way, numbers may begin with zeros, and all of it may stand before
/// or after `--` as long as names alone stand after it.
#[test]
fn right_words_in_any_order() {
    let zeros = "0".repeat(9);
    for line in [
        "secret letters --stamp 5 --key 9 --order 1,1,6",
        "secret --stamp 5 letters --order 1,1,6 --key 9",
        "--key 9 secret --order 1,1,6 letters --stamp 5",
        "--key 9 secret --order 1,1,6 --stamp 5 -- letters",
        "--key 9 --order 1,1,6 --stamp 5 -- secret letters",
        "--key 009 --order 01,001,0006 --stamp 0005 secret letters",
        &format!("--key {zeros}9 --order 1,{zeros}1,6 --stamp {zeros}5 secret letters"),
    ] {
        let scratch = lay_out();
        scratch.run(&format!("cut {line}")).is_silent();
        scratch.run("show letters/3").writes("order 1,1,6 key 9 keeper 3 stamp 5 length 60\n");
    }
}

#[test]
fn the_greatest_numbers() {
    let scratch = lay_out();
    scratch.run("cut --order 1,1,6 --key 255 --stamp 4294967295 secret letters").is_silent();
    let shown = scratch.run("show letters/6");
    shown.writes("order 1,1,6 key 255 keeper 6 stamp 4294967295 length 60\n");
    // a number that is a number and not lawful is for the library to judge
    for line in [
        "cut --order 1,1,6 --key 4294967295 --stamp 1 secret others",
        "cut --order 4294967295,4294967295,4294967295 --key 1 --stamp 1 secret others",
        "store --order 1,1,6 --key 9 --keeper 4294967295 held letter",
        "fetch --order 1,1,4294967295 --key 9 --keeper 2 held out",
        "join --order 1,1,4294967295 --key 9 tray joined",
        "compare --order 0,0,0 tray tray",
        "move-check --from 1,1,4294967295 --order 1,1,6 --key 9 tray tray",
        "move-check --from 4294967295,1,6 --order 1,1,6 --key 4294967295 tray tray",
        "move-cut --from 1,1,6 --order 1,1,6 --key 9 --length 60 --stamp 6 --keeper 4294967295 letter cut",
    ] {
        scratch.run(line).answers(1);
    }
    let greatest = "--from 1,1,6 --order 1,1,6 --key 9 --length 4294967295 --stamp 4294967295";
    scratch.run(&format!("move-cut {greatest} --keeper 2 letter cut")).answers(2);
    scratch.run(&format!("move-weigh {greatest} --keepers 2,3 --keeper 2 sent moved")).answers(2);
}

#[test]
fn options_left_out() {
    let mut all = Vec::new();
    for command in &COMMANDS {
        for (place, &(option, _)) in command.options.iter().enumerate() {
            // of stamp and length of a join both may be left out, and neither alone
            let named = match (command.name, option) {
                ("join", "--stamp" | "--length") => &["--stamp", "--length"][..],
                _ => &[option],
            };
            all.push(Wrong::missing(command, command.words_without(place), named));
        }
    }
    are_refused(&all);
}

#[test]
fn too_few_names() {
    let mut all = Vec::new();
    for command in &COMMANDS {
        let words = command.right_words();
        all.extend(
            (1..=command.names.len()).map(|missing| {
                Wrong::missing(command, words[..words.len() - missing].to_vec(), &[])
            }),
        );
        all.push(Wrong::missing(command, vec![command.name.into()], &[]));
        all.push(Wrong::missing(command, vec![command.name.into(), "--".into()], &[]));
    }
    are_refused(&all);
}

#[test]
fn too_many_names() {
    let mut all = Vec::new();
    for command in &COMMANDS {
        for more in [&["fourth"][..], &["--", "fourth"], &["--", "--fourth"], &["fourth", "fifth"]]
        {
            let mut words = command.right_words();
            words.extend(more.iter().copied().map(String::from));
            let named =
                more.iter().copied().find(|word| word.contains("fourth")).expect("it is there");
            all.push(Wrong::new(command, words, &[named, "fifth"]));
        }
    }
    are_refused(&all);
}

#[test]
fn options_twice() {
    let mut all = Vec::new();
    for command in &COMMANDS {
        for &(option, value) in command.options {
            for at in [1, command.right_words().len()] {
                let mut words = command.right_words();
                words.splice(at..at, [option, value].map(String::from));
                all.push(Wrong::new(command, words, &[option]));
            }
        }
        if let Some(bare) = command.bare {
            let mut words = command.right_words();
            words.extend([bare, bare].map(String::from));
            all.push(Wrong::new(command, words, &[bare]));
        }
    }
    are_refused(&all);
}

/// An option of no command, one of another command, and one that is not written out.
#[test]
fn options_of_others() {
    let none = [
        "--nothing",
        "-k",
        "-h",
        "--orde",
        "--orders",
        "--Key",
        "--order=1,1,6",
        "---",
        "-1",
        "--version",
    ];
    let mut all = Vec::new();
    for command in &COMMANDS {
        let own = command.all_options();
        for option in OPTIONS.iter().chain(&none).filter(|option| !own.contains(option)) {
            let takes_value = OPTIONS.contains(option) && !BARE.contains(option);
            let values = if takes_value { &["7"][..] } else { &[] };
            let mut words = command.right_words();
            words.splice(1..1, [&[*option][..], values].concat().into_iter().map(String::from));
            all.push(Wrong::new(command, words, &[option]));
        }
    }
    are_refused(&all);
}

#[test]
fn values_that_are_no_numbers() {
    let mut all = Vec::new();
    for command in &COMMANDS {
        for (place, &(option, _)) in command.options.iter().enumerate() {
            let wrong = match option {
                "--order" | "--from" => &NO_ORDERS[..],
                "--keepers" => &NO_LISTS,
                _ => &NO_NUMBERS,
            };
            for value in wrong {
                all.push(Wrong::new(command, command.words_with(place, value), &[value, option]));
            }
        }
    }
    are_refused(&all);
}

/// A value is not there: the option is the last word, or what follows is taken for it and the rest is wrong.
#[test]
fn values_left_out() {
    let mut all = Vec::new();
    for command in &COMMANDS {
        for (place, &(option, _)) in command.options.iter().enumerate() {
            let mut words = command.words_without(place);
            words.push(option.into());
            all.push(Wrong::missing(command, words, &[option]));
            let mut words = command.right_words();
            words.remove(2 + 2 * place);
            all.push(Wrong::missing(command, words, &[]));
        }
    }
    are_refused(&all);
}

/// The words of one message, as they were promised.
#[test]
fn an_order_of_two_numbers() {
    let scratch = lay_out();
    let ended = scratch.run("cut --order 2,1 --key 9 --stamp 5 secret letters");
    ended.blames_words_of("cut");
    let line =
        "csalgodes: cut: '2,1': an order is three numbers with commas between them, as 2,1,8\n";
    assert!(ended.said().starts_with(line), "{ended:?}");
}

/// Wrong words are wrong whatever comes from standard input, and so it is not waited for.
#[test]
fn nothing_is_read() {
    let scratch = lay_out();
    for line in [
        "cut --order 2,1 --key 9 --stamp 5 - letters",
        "cut --order 1,1,6 --key 9 --stamp 5 -",
        "cut --order 1,1,6 --key 9 - letters",
        "store --order 1,1,6 --key 9 --keeper x desk -",
        "move-cut --from 1,1 --order 1,1,6 --key 9 --length 60 --stamp 6 --keeper 2 - cut",
        "show - -",
        "show - --key 9",
    ] {
        let ended = scratch.line(line).with_open_input().end();
        ended.blames_words_of(line.split(' ').next().expect("a command"));
    }
    for line in ["help", "--version", "cut --help -"] {
        assert_eq!(scratch.line(line).with_open_input().end().status, 0);
    }
}

/// Standard input and output stand for a file alone.
#[test]
fn a_dash_where_none_may_be() {
    let scratch = lay_out();
    let before = scratch.look();
    for line in [
        "cut --order 1,1,6 --key 9 --stamp 5 secret -",
        "store --order 1,1,6 --key 9 --keeper 2 - letter",
        "fetch --order 1,1,6 --key 9 --keeper 2 - out",
        "join --order 1,1,6 --key 9 - joined",
        "compare --order 1,1,6 - tray",
        "compare --order 1,1,6 tray -",
        "move-cut --from 1,1,6 --order 1,1,6 --key 9 --length 60 --stamp 6 --keeper 2 letter -",
        "move-weigh --from 1,1,6 --order 1,1,6 --key 9 --length 60 --stamp 6 --keepers 2,3 --keeper 2 - out",
        "move-check --from 1,1,6 --order 1,1,6 --key 9 - tray",
        "move-check --from 1,1,6 --order 1,1,6 --key 9 tray -",
    ] {
        let ended = scratch.run(line);
        ended.blames("-");
        ended.blames_words_of(line.split(' ').next().expect("a command"));
    }
    assert_eq!(scratch.look(), before);
}

/// Words of more bytes than any name or number needs.
#[test]
fn long_words() {
    let scratch = lay_out();
    let before = scratch.look();
    let long = "7".repeat(4097);
    let zeros = "0".repeat(4096);
    for line in [
        format!("cut --order 1,1,6 --key 9 --stamp 5 {long} letters"),
        format!("cut --order 1,1,6 --key 9 --stamp 5 secret {long}"),
        format!("cut --order 1,1,6 --key 9 --stamp 5 -- secret {long}"),
        format!("cut --order 1,1,6 --key {zeros}9 --stamp 5 secret letters"),
        format!("cut --order {zeros}1,1,6 --key 9 --stamp 5 secret letters"),
        format!("show {long}"),
        format!("show --{long} letter"),
        long.clone(),
        format!("help {long}"),
    ] {
        let ended = scratch.run(&line);
        assert_eq!(ended.status, WRONG_WORDS, "{ended:?}");
        assert!(ended.text.is_empty() && !ended.trouble.is_empty(), "{ended:?}");
    }
    assert_eq!(scratch.look(), before);
}

#[test]
fn no_words_and_no_command() {
    let scratch = lay_out();
    let before = scratch.look();
    let none = scratch.run("");
    assert_eq!(none.status, WRONG_WORDS, "{none:?}");
    assert!(none.text.is_empty(), "{none:?}");
    COMMANDS.iter().for_each(|command| assert!(none.said().contains(command.name), "{none:?}"));

    for word in ["cuts", "cu", "CUT", "read", "pick", "-", "-h", "--", "--order", "7"] {
        let ended = scratch.line(word).and("secret").end();
        ended.blames(word);
        assert!(ended.said().contains("csalgodes help"), "{ended:?}");
    }
    Run::new(scratch.path(), vec!["".into()]).end().blames("");
    scratch.run("help cuts").blames("cuts");
    scratch.run("help cut store").blames("store");
    assert_eq!(scratch.look(), before);
}

/// What is asked for stands on standard output, and is no trouble. Nothing is done beside it.
#[test]
fn help() {
    let scratch = lay_out();
    let before = scratch.look();
    let helps = |line: &str| {
        let ended = scratch.run(line);
        assert_eq!((ended.status, ended.said().as_str()), (0, ""), "{ended:?}");
        ended.wrote()
    };
    let all = helps("help");
    assert_eq!(helps("--help"), all);
    for command in &COMMANDS {
        let name = command.name;
        assert!(all.contains(&format!("csalgodes {name} ")), "{all}");
        let one = helps(&format!("help {name}"));
        assert!(one.contains(&format!("csalgodes {name} ")), "{one}");
        command
            .all_options()
            .iter()
            .for_each(|option| assert!(one.contains(option), "{option}: {one}"));
        assert_eq!(helps(&format!("{name} --help")), one);
        let words = command.right_words().join(" ");
        assert_eq!(helps(&format!("{words} --help")), one);
        assert_eq!(helps(&format!("{name} --help {}", command.names.join(" "))), one);
    }
    assert_eq!(scratch.look(), before);
}

/// After `--` it is a name like any other.
#[test]
fn help_as_a_name() {
    let scratch = lay_out();
    scratch.write("--help", &scratch.read("letter"));
    scratch.run("show -- --help").writes("order 1,1,6 key 9 keeper 2 stamp 5 length 60\n");
    scratch.run("cut --order 1,1,6 --key 9 --stamp 5 -- secret --version").is_silent();
    assert_eq!(scratch.slots("--version", 6).len(), 6 * 2048);
}

/// The number after this name in the header.
fn in_header(name: &str) -> String {
    let path = concat!(env!("CARGO_MANIFEST_DIR"), "/../include/csalgodes.h");
    let header = std::fs::read_to_string(path).expect("the header");
    let front = format!("#define CSALGODES_VERSION_{name} ");
    let mut numbers = header.lines().filter_map(|line| line.strip_prefix(&front));
    numbers.next().expect("the header's version").trim().into()
}

#[test]
fn version() {
    let [major, minor, patch] = ["MAJOR", "MINOR", "PATCH"].map(in_header);
    let scratch = Scratch::new();
    scratch.run("--version").writes(&format!("csalgodes {major}.{minor}.{patch}\n"));
}
