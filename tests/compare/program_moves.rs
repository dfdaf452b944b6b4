//! The program `csalgodes` and the move of a key: old keepers cut their letters again, new ones weigh what they
//! are sent, and old and new letters are seen to give the same key. What is refused leaves nothing behind.

use std::fs;
use std::os::unix::fs::symlink;

use second::cases::{self, Tray};
use second::damage::{forge_word, spoil};
use second::join::join;
use second::letter::{Fault, Head, FROM, SUB_MARK};
use second::moves::{another, THINGS};
use second::moving::{CutAgain, Move, Weighed};
use second::order::{Order, SLOT};
use second::planted::{all_kinds, no_files, Planted};
use second::random::Random;
use second::run::{self, each, Ended};
use second::scratch::{names, Scratch};
use second::sub_letter::SubLetter;
use second::told::Told;

const KEY: u32 = 9;
const STAMP: u32 = 5;

/// A move, with letters of two blocks.
const MOVE: Move = Move {
    old: Order { t: 2, f: 1, n: 8 },
    new: Told { order: Order { t: 3, f: 1, n: 11 }, key: KEY },
    length: 300,
    stamp: STAMP + 1,
};

/// The old keepers that cut for it, and the new one whose sub-letters lie in the folder `sent`.
const KEEPERS: [u32; 3] = [7, 2, 5];
const NEW: u32 = 4;

fn numbers(Order { t, f, n }: Order) -> String {
    format!("{t},{f},{n}")
}

fn words(told: Move) -> String {
    let Move { old, new, length, stamp } = told;
    format!("--from {} {} --length {length} --stamp {stamp}", numbers(old), run::told(new))
}

fn list(keepers: &[u32]) -> String {
    keepers.iter().map(u32::to_string).collect::<Vec<_>>().join(",")
}

fn cut(told: Move, keeper: u32, letter: &str, folder: &str) -> String {
    format!("move-cut {} --keeper {keeper} {letter} {folder}", words(told))
}

/// To the file `out`, from the folder `sent`.
fn weigh(told: Move, keepers: &[u32], keeper: u32) -> String {
    weigh_to("out", "sent", told, keepers, keeper)
}

fn weigh_to(out: &str, sent: &str, told: Move, keepers: &[u32], keeper: u32) -> String {
    let list = list(keepers);
    format!("move-weigh {} --keepers {list} --keeper {keeper} {sent} {out}", words(told))
}

fn check(told: Move, old: &str, new: &str) -> String {
    format!("move-check --from {} {} {old} {new}", numbers(told.old), run::told(told.new))
}

/// A tray in the folder `old`, and a move of it.
struct Table {
    scratch: Scratch,
    old: Tray,
    told: Move,
    keepers: Vec<u32>,
}

impl Table {
    fn of(told: Move, keepers: &[u32], random: &Random) -> Table {
        let scratch = Scratch::new();
        let of = Told::new(told.old, told.new.key);
        let old = Tray::cut(of, STAMP, told.length as usize, random);
        scratch.tray("old", &old.bytes);
        Table { scratch, old, told, keepers: keepers.into() }
    }

    /// With the sub-letters of one new keeper in the folder `sent`, cut by the second program.
    fn new() -> Table {
        let random = &Random::new(401);
        let table = Table::of(MOVE, &KEEPERS, random);
        table.scratch.folder("sent");
        for &keeper in &table.keepers {
            table.scratch.write(sent(keeper), &table.sub_letter(keeper, random));
        }
        table
    }

    fn sub_letter(&self, keeper: u32, random: &Random) -> Vec<u8> {
        let order = self.told.new.order;
        let words = random.words(self.old.secret.len() * order.t as usize);
        let mut tray = vec![0; order.tray()];
        let cut = self.told.cut(keeper, self.old.letter(keeper), &words, &mut tray);
        assert_eq!(cut, CutAgain { number: 0, place: 0 });
        tray[(NEW as usize - 1) * SLOT..][..SLOT].to_vec()
    }

    /// The letter that comes of the sub-letters in this folder, by the second program.
    fn weighed(&self, folder: &str, keeper: u32) -> Vec<u8> {
        let sub_letter = |from: &u32| self.scratch.read(format!("{folder}/{from}"));
        let letters: Vec<u8> = self.keepers.iter().flat_map(sub_letter).collect();
        let mut letter = vec![0; SLOT];
        let weighed = self.told.weigh(&self.keepers, keeper, &letters, &mut letter);
        assert_eq!(weighed, Weighed { number: 0, letter: 0, place: 0 });
        letter
    }

    /// Each of these lines ends with the number, writes nothing and changes nothing.
    #[track_caller]
    fn answer(&self, number: u32, lines: &[String]) {
        let before = self.scratch.look();
        each(lines, |line| {
            let ended = self.scratch.run(line);
            ended.answers(number);
            assert!(ended.text.is_empty(), "{ended:?}");
        });
        assert_eq!(self.scratch.look(), before);
    }

    /// Each has trouble with the file of this name, and changes nothing.
    #[track_caller]
    fn is_trouble(&self, name: &str, lines: &[String]) {
        let before = self.scratch.look();
        each(lines, |line| {
            let ended = self.scratch.run(line);
            ended.is_trouble();
            assert!(ended.text.is_empty() && ended.said().contains(name), "{name}: {ended:?}");
        });
        assert_eq!(self.scratch.look(), before, "{name}");
    }

    /// The weighing of `sent` comes to what the second program weighs of the sub-letters as they were sent.
    #[track_caller]
    fn weighs_to(&self, expected: &[u8], keepers: &[u32]) {
        self.scratch.run(&weigh(self.told, keepers, NEW)).is_silent();
        assert!(self.scratch.read("out") == expected);
        self.scratch.remove("out");
    }
}

/// The file of a sub-letter.
fn sent(keeper: u32) -> String {
    format!("sent/{keeper}")
}

/// The folder holds a good sub-letter of this old keeper for each new one, its owner's alone.
fn are_sub_letters(scratch: &Scratch, folder: &str, told: Move, keeper: u32) {
    assert_eq!(names(&scratch.at(folder)).len(), told.new.order.n as usize);
    assert_eq!(scratch.mode(folder), 0o700);
    for new in 1..=told.new.order.n {
        let file = format!("{folder}/{new}");
        let SubLetter { letter, from } = SubLetter::read(&scratch.read(&file)).expect("a good one");
        assert_eq!((letter.head, from), (told.head(new), Some(keeper)), "{file}");
        assert_eq!(scratch.mode(&file), 0o600);
    }
}

impl Table {
    /// Each old keeper cuts its letter.
    fn cut_all(&self) {
        for &keeper in &self.keepers {
            let (letter, folder) = (format!("old/{keeper}"), format!("cut-{keeper}"));
            self.scratch.run(&cut(self.told, keeper, &letter, &folder)).is_silent();
            are_sub_letters(&self.scratch, &folder, self.told, keeper);
        }
    }

    /// A new keeper is sent its sub-letters, and weighs them.
    fn weigh_one(&self, new: u32) {
        let (scratch, folder) = (&self.scratch, format!("sent-{new}"));
        scratch.folder(&folder);
        for keeper in &self.keepers {
            let file = scratch.at(format!("cut-{keeper}/{new}"));
            fs::rename(file, scratch.at(format!("{folder}/{keeper}"))).expect("it is there");
        }
        let (expected, out) = (self.weighed(&folder, new), format!("new/{new}"));
        scratch.run(&weigh_to(&out, &folder, self.told, &self.keepers, new)).is_silent();
        assert!(scratch.read(&out) == expected && scratch.mode(&out) == 0o600, "{out}");
        scratch.remove(&folder);
    }

    /// Moves all letters to the folder `new`, and leaves nothing else.
    fn move_all(&self) {
        self.cut_all();
        self.scratch.folder("new");
        (1..=self.told.new.order.n).for_each(|new| self.weigh_one(new));
        self.keepers.iter().for_each(|keeper| self.scratch.remove(format!("cut-{keeper}")));
        self.scratch.holds(&["new", "old"]);
    }

    /// What a check says of both trays, without its last line.
    fn lines(&self) -> String {
        let Move { length, stamp, new: Told { key, .. }, .. } = self.told;
        format!(
            "old key {key} stamp {STAMP} length {length}\nnew key {key} stamp {stamp} length {length}\n"
        )
    }

    /// The letters in `new` are all of one cut, and give this secret or another.
    fn joins(&self) -> Vec<u8> {
        let Move { new, length, stamp, .. } = self.told;
        let tray = self.scratch.slots("new", new.order.n);
        let mut secret = vec![0; length as usize];
        let joined = join(new, stamp, length, &tray, &mut secret);
        assert_eq!((joined.number, joined.usable, joined.trials), (0, new.order.n, 1));
        secret
    }
}

/// From an order to another, by old keepers that need not begin with 1, up to the longest key.
#[test]
fn whole_moves() {
    let random = &Random::new(402);
    let moves: [(Order, Order, &[u32], u32); 5] = [
        (Order::new(1, 0, 2), Order::new(1, 0, 2), &[2, 1], 1),
        (Order::new(2, 1, 8), Order::new(3, 1, 11), &[7, 2, 5], 32),
        (Order::new(7, 2, 16), Order::new(1, 1, 6), &[16, 15, 3, 9, 2, 12, 5, 7], 239),
        (Order::new(1, 1, 6), Order::new(7, 0, 9), &[6, 3], 952),
        (Order::new(3, 3, 16), Order::new(3, 3, 16), &[16, 2, 11, 5], 60),
    ];
    let tables = moves.map(|(old, new, keepers, length)| {
        let new = cases::told_of(new, random);
        Table::of(Move { old, new, length, stamp: u32::MAX }, keepers, random)
    });
    each(&tables, |table| {
        table.move_all();
        assert!(table.joins() == table.old.secret, "{:?}", table.told);
        let before = table.scratch.look();
        let checked = table.scratch.run(&check(table.told, "old", "new"));
        checked.writes(&(table.lines() + "the same key\n"));
        assert_eq!(table.scratch.look(), before);
    });
}

/// One old keeper cuts another letter than it holds. The new letters are good, and the check alone tells.
#[test]
fn an_old_keeper_that_lies() {
    let table = Table::of(MOVE, &KEEPERS, &Random::new(403));
    let mut lies = table.old.clone();
    lies.add_to(5, 17, 1);
    table.scratch.write("old/5", lies.letter(5));
    table.move_all();
    assert!(table.joins() != table.old.secret);
    table.scratch.write("old/5", table.old.letter(5));
    let before = table.scratch.look();
    let ended = table.scratch.run(&check(table.told, "old", "new"));
    assert_eq!((ended.status, ended.said().as_str()), (99, ""), "{ended:?}");
    assert_eq!(ended.wrote(), table.lines() + "different keys\n");
    assert_eq!(table.scratch.look(), before);
}

/// A check of these two trays, of the orders of the move.
fn checked(old: &Tray, new: &Tray) -> Ended {
    let scratch = Scratch::new();
    scratch.tray("old", &old.bytes);
    scratch.tray("new", &new.bytes);
    let before = scratch.look();
    let ended = scratch.run(&check(MOVE, "old", "new"));
    assert_eq!(scratch.look(), before);
    ended
}

fn old_tray(length: usize, random: &Random) -> Tray {
    Tray::cut(Told::new(MOVE.old, KEY), STAMP, length, random)
}

fn new_tray(length: usize, random: &Random) -> Tray {
    Tray::cut(MOVE.new, MOVE.stamp, length, random)
}

/// A key that is longer or shorter is another, even where one begins with the other.
#[test]
fn keys_of_other_lengths() {
    let random = &Random::new(404);
    for (length, other) in [(60, 59), (60, 61), (1, 952)] {
        let ended = checked(&old_tray(length, random), &new_tray(other, random));
        assert_eq!((ended.status, ended.said().as_str()), (99, ""), "{ended:?}");
        let lines =
            format!("old key 9 stamp 5 length {length}\nnew key 9 stamp 6 length {other}\n");
        assert_eq!(ended.wrote(), lines + "different keys\n");
    }
}

/// A tray that gives no key has its number, and it is said which it is. So a check that is not made is not
/// taken for one that finds a difference.
#[test]
fn trays_that_give_no_key() {
    let random = &Random::new(405);
    for number in [6, 7, 8] {
        let spoil = |tray: &mut Tray| match number {
            6 => tray.bytes[3 * SLOT..].fill(0),
            7 => tray.lie_apart(&[2, 5], random),
            _ => tray.move_to_256(17),
        };
        let (mut old, mut new) = (old_tray(60, random), new_tray(60, random));
        spoil(&mut old);
        let ended = checked(&old, &new);
        ended.answers(number);
        assert!(ended.said().contains("csalgodes: old: "), "{ended:?}");
        assert_eq!(ended.wrote(), "", "{ended:?}");
        spoil(&mut new);
        let ended = checked(&old_tray(60, random), &new);
        ended.answers(number);
        assert!(ended.said().contains("csalgodes: new: "), "{ended:?}");
        assert_eq!(ended.wrote(), "old key 9 stamp 5 length 60\n", "{ended:?}");
    }
}

/// Lies that a join bears are no difference, and slots that are missing count as empty.
#[test]
fn a_check_of_damaged_trays() {
    let random = &Random::new(406);
    let table = Table::of(Move { length: 60, ..MOVE }, &KEEPERS, random);
    table.move_all();
    let lies = new_tray(60, random);
    table.scratch.write("new/3", lies.letter(3));
    table.scratch.remove("new/9");
    table.scratch.write("old/1", b"no letter");
    let ended = table.scratch.run(&check(table.told, "old", "new"));
    assert_eq!(ended.status, 0, "{ended:?}");
    assert_eq!(ended.wrote(), table.lines() + "the same key\n");
    let said = ended.said();
    assert!(
        said.contains("csalgodes: new/9: is not there, and counts as an empty slot\n"),
        "{said}"
    );
    assert!(said.contains("csalgodes: old/1: ") && said.lines().count() == 2, "{said}");
}

#[test]
fn trays_that_are_not_there() {
    let table = Table::new();
    table
        .is_trouble("nowhere", &[check(MOVE, "nowhere", "old"), check(MOVE, "nowhere", "nowhere")]);
    let ended = table.scratch.run(&check(MOVE, "old", "nowhere"));
    ended.is_trouble();
    assert!(ended.said().contains("nowhere"), "{ended:?}");
}

/// The list may be in any order, and a sub-letter is known by what it names, not by its file.
#[test]
fn sub_letters_in_any_order() {
    let table = Table::new();
    let expected = table.weighed("sent", NEW);
    for keepers in [[2, 5, 7], [5, 7, 2], [7, 5, 2]] {
        table.weighs_to(&expected, &keepers);
    }
    let [one, other] = [2, 5].map(|keeper| table.scratch.read(sent(keeper)));
    table.scratch.write(sent(2), &other);
    table.scratch.write(sent(5), &one);
    table.weighs_to(&expected, &KEEPERS);
    // what is not listed is not looked at
    table.scratch.write(sent(3), b"no sub-letter");
    table.scratch.write("sent/other", b"");
    table.weighs_to(&expected, &KEEPERS);
}

/// Two cuttings of one letter have no sub-letter in common: their random words differ.
#[test]
fn two_cuttings_differ() {
    let Table { scratch, .. } = &Table::new();
    for folder in ["one", "two"] {
        scratch.run(&cut(MOVE, 2, "old/2", folder)).is_silent();
        are_sub_letters(scratch, folder, MOVE, 2);
    }
    for keeper in 1..=MOVE.new.order.n {
        let [one, two] = ["one", "two"].map(|folder| scratch.read(format!("{folder}/{keeper}")));
        assert!(one != two, "keeper {keeper}");
    }
}

#[test]
fn number_1() {
    let table = Table::new();
    let unlawful = [
        Move { old: Order::new(2, 1, 6), ..MOVE },
        Move { old: Order::new(2, 1, u32::MAX), ..MOVE },
        Move { new: Told::new(Order::new(3, 1, 7), KEY), ..MOVE },
        Move { new: Told::new(Order::new(8, 0, 16), KEY), ..MOVE },
        Move { new: Told::new(Order::new(3, 1, u32::MAX), KEY), ..MOVE },
        Move { new: Told { key: 256, ..MOVE.new }, ..MOVE },
    ];
    let lines: Vec<String> = unlawful
        .into_iter()
        .flat_map(|told| [cut(told, 2, "old/2", "cut"), weigh(told, &KEEPERS, NEW)])
        .collect();
    table.answer(1, &lines);
    table.scratch.write(sent(9), &table.scratch.read(sent(2)));
    table.answer(
        1,
        &[
            cut(MOVE, 0, "old/2", "cut"),
            cut(MOVE, 9, "old/2", "cut"),
            weigh(MOVE, &KEEPERS, 0),
            weigh(MOVE, &KEEPERS, 12),
            weigh(MOVE, &[2, 9, 7], NEW),
        ],
    );
    for (told, side) in [(unlawful[0], "old"), (unlawful[2], "new"), (unlawful[5], "old")] {
        let ended = table.scratch.run(&check(told, "old", "old"));
        ended.answers(1);
        assert!(side == "new" || ended.text.is_empty(), "{ended:?}");
    }
}

#[test]
fn numbers_2_and_3() {
    let table = Table::new();
    let both = |told: Move| [cut(told, 2, "old/2", "cut"), weigh(told, &KEEPERS, NEW)];
    for length in [0, 953, u32::MAX] {
        table.answer(2, &both(Move { length, ..MOVE }));
        table.answer(2, &both(Move { length, stamp: 0, ..MOVE }));
    }
    table.answer(3, &both(Move { stamp: 0, ..MOVE }));
}

/// A letter of another size, and another count of old keepers than t+1.
#[test]
fn number_4() {
    let table = Table::new();
    let letter = table.old.letter(2);
    table.scratch.write("short", &letter[..SLOT - 1]);
    table.scratch.write("long", &[letter, &[0]].concat());
    table.scratch.write("empty", b"");
    table.answer(4, &["short", "long", "empty"].map(|name| cut(MOVE, 2, name, "cut")));
    table.scratch.write(sent(8), &table.scratch.read(sent(2)));
    table.answer(
        4,
        &[&[2, 5][..], &[2], &[2, 5, 7, 8], &[7, 7, 7, 7, 7, 7, 7, 7]]
            .map(|keepers| weigh(MOVE, keepers, NEW)),
    );
}

/// Faults of a letter, in each of its blocks.
#[test]
fn numbers_9_to_13_of_a_letter() {
    let (table, random) = (Table::new(), &Random::new(407));
    for (number, place) in (9..=13).flat_map(|number| [(number, 0), (number, 1)]) {
        let mut letter = table.old.letter(2).to_vec();
        let fault = spoil(&mut letter, number, place, random);
        table.scratch.write("letter", &letter);
        let before = table.scratch.look();
        is_fault(&table.scratch.run(&cut(MOVE, 2, "letter", "cut")), fault);
        assert_eq!(table.scratch.look(), before);
    }
}

/// It has the number, and its place where the number has one.
#[track_caller]
fn is_fault(ended: &Ended, Fault { number, place }: Fault) {
    match number {
        13 => ended.answers(number),
        _ => ended.answers_in(number, place),
    }
    assert!(ended.text.is_empty(), "{ended:?}");
}

/// Faults of a sub-letter, which is named.
#[test]
fn numbers_9_to_13_of_a_sub_letter() {
    let (table, random) = (Table::new(), &Random::new(408));
    for ((number, place), &keeper) in
        (9..=13).flat_map(|number| [(number, 0), (number, 1)]).zip(KEEPERS.iter().cycle())
    {
        let good = table.scratch.read(sent(keeper));
        let mut spoiled = good.clone();
        let fault = spoil(&mut spoiled, number, place, random);
        table.scratch.write(sent(keeper), &spoiled);
        let before = table.scratch.look();
        let ended = table.scratch.run(&weigh(MOVE, &KEEPERS, NEW));
        is_fault(&ended, fault);
        assert!(ended.said().contains(&format!("csalgodes: {}: ", sent(keeper))), "{ended:?}");
        assert_eq!(table.scratch.look(), before);
        table.scratch.write(sent(keeper), &good);
    }
}

/// A letter where a sub-letter goes, a sub-letter where a letter goes, and an empty slot for either.
#[test]
fn number_11_of_the_other_kind() {
    let table = Table::new();
    let (letter, sub_letter) = (table.weighed("sent", NEW), table.scratch.read(sent(2)));
    table.scratch.write("sub-letter", &sub_letter);
    table.scratch.write("empty", &[0; SLOT]);
    for name in ["sub-letter", "empty"] {
        table.scratch.run(&cut(MOVE, 2, name, "cut")).answers_in(11, 0);
        table.scratch.run(&format!("show {name}")).answers_in(11, 0);
    }
    for slot in [letter, vec![0; SLOT]] {
        table.scratch.write(sent(2), &slot);
        table.scratch.run(&weigh(MOVE, &KEEPERS, NEW)).answers_in(11, 0);
    }
    assert!(!table.scratch.has("cut") && !table.scratch.has("out"));
}

/// A good letter of another order, key, keeper or length. Its stamp is not told.
#[test]
fn number_16_of_a_letter() {
    let (table, random) = (Table::new(), &Random::new(409));
    let head = MOVE.old_head(2, STAMP);
    for thing in 0..THINGS - 1 {
        let other = another(head, thing, random);
        table.scratch.write("letter", &cases::letter_of(other, random).slot());
        table.answer(16, &[cut(MOVE, 2, "letter", "cut")]);
    }
    table.scratch.write("letter", &cases::letter_of(Head { stamp: 1, ..head }, random).slot());
    table.scratch.run(&cut(MOVE, 2, "letter", "cut")).is_silent();
}

/// A good sub-letter of another order, key, keeper, length or stamp, which is named.
#[test]
fn number_16_of_a_sub_letter() {
    let (table, random) = (Table::new(), &Random::new(410));
    for thing in 0..THINGS {
        let other = another(MOVE.head(NEW), thing, random);
        let slot = cases::letter_of(other, random).slot_of(SUB_MARK, 5);
        table.scratch.write(sent(5), &slot);
        table.answer(16, &[weigh(MOVE, &KEEPERS, NEW)]);
        let ended = table.scratch.run(&weigh(MOVE, &KEEPERS, NEW));
        assert!(ended.said().contains("csalgodes: sent/5: "), "{ended:?}");
    }
}

/// The old keepers are not those that were told, each once.
#[test]
fn number_19() {
    let (table, random) = (Table::new(), &Random::new(411));
    table.answer(19, &[[2, 5, 5], [2, 2, 2]].map(|keepers| weigh(MOVE, &keepers, NEW)));
    let good = table.scratch.read(sent(5));
    let named = |from: u32| {
        let mut slot = good.clone();
        (0..2).for_each(|place| forge_word(&mut slot, place, FROM, from));
        slot
    };
    let mut changing = good.clone();
    forge_word(&mut changing, 1, FROM, 2);
    let wrong = [
        table.scratch.read(sent(2)),
        table.sub_letter(8, random),
        named(0),
        named(9),
        named(256),
        changing,
    ];
    for slot in wrong {
        table.scratch.write(sent(5), &slot);
        table.answer(19, &[weigh(MOVE, &KEEPERS, NEW)]);
    }
}

/// The stamp of the old letter, and one below it.
#[test]
fn number_20() {
    let table = Table::new();
    let stamped = |stamp| cut(Move { stamp, ..MOVE }, 2, "old/2", "cut");
    table.answer(20, &[STAMP, STAMP - 1, 1].map(stamped));
    table.scratch.run(&stamped(u32::MAX)).is_silent();
}

/// Every sub-letter is needed: none counts as empty, whatever stands in its place.
#[test]
fn sub_letters_that_are_no_files() {
    let table = Table::new();
    let good = table.scratch.read(sent(5));
    let line = [weigh(MOVE, &KEEPERS, NEW)];
    for size in [0, SLOT - 1] {
        table.scratch.write(sent(5), &good[..size]);
        table.is_trouble("sent/5", &line);
    }
    table.scratch.write(sent(5), &[good.as_slice(), &[0]].concat());
    table.is_trouble("sent/5", &line);
    table.scratch.remove(sent(5));
    table.is_trouble("sent/5", &line);
    for thing in no_files() {
        thing.plant(&table.scratch.at(sent(5)));
        table.is_trouble("sent/5", &line);
        table.scratch.remove(sent(5));
    }
    table.scratch.remove("sent");
    table.is_trouble("sent", &line);
}

/// A link to a file is read as the file.
#[test]
fn sub_letters_and_letters_by_links() {
    let table = Table::new();
    let Table { scratch, .. } = &table;
    let expected = table.weighed("sent", NEW);
    fs::rename(scratch.at(sent(5)), scratch.at("elsewhere")).expect("it is there");
    symlink("../elsewhere", scratch.at(sent(5))).expect("a link");
    symlink("sent", scratch.at("way")).expect("a link");
    symlink("old/2", scratch.at("letter")).expect("a link");
    table.weighs_to(&expected, &KEEPERS);
    scratch.run(&weigh_to("out", "way", MOVE, &KEEPERS, NEW)).is_silent();
    assert!(scratch.read("out") == expected);
    scratch.run(&cut(MOVE, 2, "letter", "cut")).is_silent();
    are_sub_letters(scratch, "cut", MOVE, 2);
}

#[test]
fn letters_that_are_no_files() {
    let table = Table::new();
    let line = [cut(MOVE, 2, "letter", "cut")];
    table.is_trouble("letter", &line);
    for thing in no_files() {
        thing.plant(&table.scratch.at("letter"));
        table.is_trouble("letter", &line);
        table.scratch.remove("letter");
    }
}

/// What stands where the sub-letters are to come to stand. An empty folder is taken.
#[test]
fn a_folder_that_is_there() {
    let table = Table::new();
    let Table { scratch, .. } = &table;
    let line = [cut(MOVE, 2, "old/2", "cut")];
    for name in ["cut", "cut.new"] {
        for thing in all_kinds("old/2").into_iter().filter(|&thing| thing != Planted::Folder) {
            thing.plant(&scratch.at(name));
            table.is_trouble("cut", &line);
            scratch.remove(name);
        }
        scratch.folder(name);
        scratch.write(format!("{name}/.hidden"), b"");
        table.is_trouble("cut", &line);
        scratch.remove(name);
    }
    scratch.folder("cut");
    scratch.set_mode("cut", 0o755);
    scratch.run(&line[0]).is_silent();
    are_sub_letters(scratch, "cut", MOVE, 2);
    scratch.holds(&["cut", "old", "sent"]);
}

/// A letter that is there stays, and is replaced only if asked; a refusal replaces nothing.
#[test]
fn a_letter_that_is_there() {
    let table = Table::new();
    let Table { scratch, .. } = &table;
    let expected = table.weighed("sent", NEW);
    let (line, replacing) = (weigh(MOVE, &KEEPERS, NEW), "--replace out");
    let replaced = weigh_to(replacing, "sent", MOVE, &KEEPERS, NEW);
    scratch.write("out", b"what was there");
    scratch.set_mode("out", 0o644);
    table.is_trouble("out", &[line.clone()]);
    table.answer(19, &[weigh_to(replacing, "sent", MOVE, &[2, 5, 5], NEW)]);
    for _ in 0..2 {
        scratch.run(&replaced).is_silent();
        assert!(scratch.read("out") == expected && scratch.mode("out") == 0o600);
    }
    scratch.remove("out");
    scratch.run(&replaced).is_silent();
    assert!(scratch.read("out") == expected);
    scratch.remove("out");
    // only a file is replaced
    for thing in all_kinds("old/2") {
        thing.plant(&scratch.at("out"));
        table.is_trouble("out", &[line.clone(), replaced.clone()]);
        scratch.remove("out");
    }
    // whoever else is at work there is waited for, and then told of
    scratch.write("out.lock", b"");
    table.is_trouble("out", &[line]);
    scratch.holds(&["old", "out.lock", "sent"]);
}

#[test]
fn standard_input_and_output() {
    let table = Table::new();
    let Table { scratch, old, .. } = &table;
    let line = cut(MOVE, 2, "-", "cut");
    for size in [0, 1, SLOT - 1, SLOT + 1, 100_000] {
        scratch.line(&line).given(&vec![0; size]).end().answers(4);
    }
    scratch.line(&line).given(old.letter(2)).end().is_silent();
    are_sub_letters(scratch, "cut", MOVE, 2);
    let ended = scratch.run(&weigh_to("-", "sent", MOVE, &KEEPERS, NEW));
    assert_eq!((ended.status, ended.said().as_str()), (0, ""), "{ended:?}");
    assert!(ended.text == table.weighed("sent", NEW));
    let ended = scratch.run(&weigh_to("-", "sent", MOVE, &[2, 5, 5], NEW));
    ended.answers(19);
    assert!(ended.text.is_empty(), "{ended:?}");
    scratch.holds(&["cut", "old", "sent"]);
}

/// Whatever the mask says, what is made is its owner's alone, and its owner may read and write it.
#[test]
fn modes_under_any_mask() {
    each(&["000", "022", "0177"], |mask| {
        let table = Table::new();
        let Table { scratch, .. } = &table;
        for line in [cut(MOVE, 2, "old/2", "cut"), weigh(MOVE, &KEEPERS, NEW)] {
            let masked = scratch.line(&line).by_shell(&format!("umask {mask}; exec \"$@\""));
            masked.end().is_silent();
        }
        are_sub_letters(scratch, "cut", MOVE, 2);
        assert_eq!(scratch.mode("out"), 0o600, "mask {mask}");
    });
}

/// Names with spaces, quotes and line ends go through all three commands.
#[test]
fn names_with_spaces() {
    each(&["a name with spaces", "it's", "-name", "two\nlines", "--keepers"], |name| {
        let table = Table::of(Move { length: 20, ..MOVE }, &KEEPERS, &Random::new(412));
        let Table { scratch, told, keepers, .. } = &table;
        let (letters, new) = (scratch.at(name), format!("{name} new"));
        fs::rename(scratch.at("old"), &letters).expect("another name");
        scratch.folder(&new);
        let run = |words: &str, names: [&str; 2]| {
            scratch.line(words).and("--").and(names[0]).and(names[1]).end()
        };
        for keeper in keepers {
            let (letter, folder) = (format!("{name}/{keeper}"), format!("{name} cut {keeper}"));
            run(&cut(*told, *keeper, "", ""), [&letter, &folder]).is_silent();
        }
        for to in 1..=told.new.order.n {
            let (folder, out) = (format!("{name} to {to}"), format!("{new}/{to}"));
            scratch.folder(&folder);
            for keeper in keepers {
                let sub_letter = scratch.read(format!("{name} cut {keeper}/{to}"));
                scratch.write(format!("{folder}/{keeper}"), &sub_letter);
            }
            run(&weigh_to("", "", *told, keepers, to), [&folder, &out]).is_silent();
        }
        let ended = run(&check(*told, "", ""), [name, &new]);
        ended.writes(&(table.lines() + "the same key\n"));
        // the trays, a folder of each that cut, and one of each that was sent something
        assert_eq!(scratch.names().len(), 2 + keepers.len() + told.new.order.n as usize);
    });
}
