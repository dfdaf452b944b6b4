//! `docs/FORMAT.md`, the page of this file, beside the library and the second program: its worked
//! numbers are read as they stand there, and both must give them.

use std::io::Write;
use std::process::Stdio;

use second::block::{self, Words, BLOCK, WORDS};
use second::both::Both;
use second::compare::{Compared, Difference};
use second::damage::{exchange_slot, forge_word, lie, set_word, share, slot, word};
use second::desk::{Desk, Stored};
use second::document::{document, ends, fenced, number, numbers, optional, table};
use second::join::Joined;
use second::letter::{Fault, Head, Letter};
use second::order::{Order, LONGEST, SLOT};
use second::peer::{program, Peer};
use second::pick::Picked;
use second::report::report;
use second::told::Told;

/// What holds where the page says nothing else.
const TOLD: Told = Told { order: Order { t: 1, f: 1, n: 6 }, key: 0 };
const STAMP: u32 = 7;

fn page() -> String {
    document("FORMAT.md")
}

fn both() -> Both {
    Both::over(Peer::start())
}

/// The page's order under this key.
fn of_key(key: u32) -> Told {
    Told { key, ..TOLD }
}

/// One byte, with all else as the page has it.
fn cut_byte(both: &mut Both, secret: u8, random: u16) -> Vec<u8> {
    both.cut_tray(TOLD, STAMP, &[secret], &[random])
}

/// The join of one byte, and the byte if it is written.
fn join_byte(both: &mut Both, told: Told, tray: &[u8]) -> (Joined, Option<u32>) {
    let mut room = [0xaa];
    let joined = both.join(told, STAMP, 1, tray, &mut room);
    (joined, (room != [0xaa]).then_some(room[0].into()))
}

#[test]
fn the_fewest_keepers() {
    let (page, mut both) = (page(), both());
    let rows = table(&page, "| t | f=0 | f=1 | f=2 | f=3 |");
    assert_eq!(rows.len(), 7);
    for row in rows {
        for (f, cell) in (0..).zip(&row[1..]) {
            let fewest = optional(cell);
            for n in 1..=16 {
                let order = Order::new(number(row[0]), f, n);
                let told = Told { order, ..TOLD };
                let refused = both.pick(told, &vec![0; order.tray()]).number == 1;
                assert_eq!(refused, fewest.is_none_or(|fewest| n < fewest), "{order:?}");
            }
        }
    }
}

#[test]
fn words_and_their_bytes() {
    let page = page();
    let mut next = 0;
    for row in table(&page, "| word | bytes | holds |") {
        let (words, bytes) = (ends(row[0]), ends(row[1]));
        assert_eq!(bytes, (2 * words.0, 2 * words.1 + 1));
        assert_eq!(words.0, next);
        next = words.1 + 1;
    }
    assert_eq!(next, WORDS);
}

#[test]
fn how_many_blocks() {
    let (page, mut both) = (page(), both());
    let rows = table(&page, "| L | blocks |");
    let mut past = 1;
    for row in rows {
        let (least, most) = ends(row[0]);
        assert_eq!(least, past, "the lengths follow on each other");
        past = most + 1;
        for length in [least, most] {
            let tray = both.cut_tray(TOLD, STAMP, &vec![1; length], &vec![1; length]);
            let used = tray[..SLOT].chunks(BLOCK).take_while(|block| block[1] != 0);
            assert_eq!(used.count(), number(row[1]) as usize);
        }
    }
    assert_eq!(past, LONGEST + 1);
}

#[test]
fn all_numbers_in_their_order() {
    let page = page();
    let rows = table(&page, "| number | answered exactly when | by |");
    let found: Vec<u32> = rows.iter().map(|row| number(row[0])).collect();
    assert_eq!(found, (0..=20).collect::<Vec<_>>());
}

#[test]
fn cuts() {
    let (page, mut both) = (page(), both());
    let first = "| case | t | f | n | secret | random words | keepers | their share words |";
    let rows = table(&page, first);
    assert_eq!(rows.iter().map(|row| row[0]).collect::<Vec<_>>(), ["C1", "C9", "C10", "C11"]);
    for row in rows {
        let order = Order::new(number(row[1]), number(row[2]), number(row[3]));
        let random: Vec<u16> = numbers(row[5]).into_iter().map(|word| word as u16).collect();
        let told = Told { order, ..TOLD };
        let mut tray = both.cut_tray(told, STAMP, &[number(row[4]) as u8], &random);
        let held = numbers(row[6]).into_iter().map(|keeper| share(slot(&mut tray, keeper), 0));
        assert_eq!(held.collect::<Vec<_>>(), numbers(row[7]), "{}", row[0]);
    }
}

/// What the page says below its cuts: for the secret 0, one random word alone gives keeper 2 its word.
#[test]
fn one_random_word_alone() {
    let mut both = both();
    let mut held = |secret, random| share(slot(&mut cut_byte(&mut both, secret, random), 2), 0);
    let known = held(200, 100);
    let giving = (0..=256).filter(|&random| held(0, random) == known);
    assert_eq!(giving.collect::<Vec<_>>(), [200]);
}

/// The bytes that the page has in hexadecimal, and zeros to the slot's end.
fn slot_of_the_page(page: &str) -> Vec<u8> {
    let lines = fenced(page, "### A letter");
    assert_eq!(lines.len(), 32);
    let byte = |text| u8::from_str_radix(text, 16).expect("a byte in hexadecimal");
    let mut slot = Vec::new();
    for line in lines {
        assert_eq!(line.len(), 47, "sixteen bytes a line");
        slot.extend(line.split(' ').map(byte));
    }
    assert_eq!(slot.len(), BLOCK);
    slot.resize(SLOT, 0);
    slot
}

#[test]
fn the_letter_in_hexadecimal() {
    let (page, mut both) = (page(), both());
    let rows = table(&page, "| t | f | n | key | stamp | keeper | secret | random words |");
    let [t, f, n, key, stamp, keeper] = [0, 1, 2, 3, 4, 5].map(|i| number(rows[0][i]));
    let secret: Vec<u8> = numbers(rows[0][6]).into_iter().map(|byte| byte as u8).collect();
    let random: Vec<u16> = numbers(rows[0][7]).into_iter().map(|word| word as u16).collect();
    let mut tray = both.cut_tray(Told::new(Order::new(t, f, n), key), stamp, &secret, &random);
    assert!(slot_of_the_page(&page) == slot(&mut tray, keeper), "not the bytes that are cut");
}

#[test]
fn the_letter_in_words() {
    let page = page();
    let rows = table(&page, "| words | hold |");
    let [places, values] = [0, 1].map(|i| rows.iter().flat_map(move |row| numbers(row[i])));
    assert_eq!(places.clone().collect::<Vec<_>>(), (0..=19).chain(254..=255).collect::<Vec<_>>());
    let mut words: Words = [0; WORDS];
    for (place, value) in places.zip(values) {
        words[place as usize] = value;
    }
    assert!(block::bytes(&words) == slot_of_the_page(&page)[..BLOCK], "not the words of the bytes");
}

#[test]
fn what_the_letter_reads_as() {
    let (page, mut both) = (page(), both());
    let rows = table(&page, "| number | place | t | f | n | key | keeper | stamp | length |");
    let [number, place, t, f, n, key, keeper, stamp, length] =
        std::array::from_fn(|i| number(rows[0][i]));
    assert_eq!([number, place], [0, 0]);
    let head = Head { told: Told::new(Order::new(t, f, n), key), keeper, stamp, length };
    assert_eq!(both.read(&slot_of_the_page(&page)), Ok(head));
}

/// The tray of the page's longer letters.
fn longer_tray(page: &str, both: &mut Both) -> Vec<u8> {
    let rows = table(page, "| t | f | n | key | stamp | L |");
    let [t, f, n, key, stamp, length] = [0, 1, 2, 3, 4, 5].map(|i| number(rows[0][i]));
    let secret: Vec<u8> = (0..length).map(|i| (i % 256) as u8).collect();
    let random: Vec<u16> = (0..length * t).map(|j| (j % 257) as u16).collect();
    both.cut_tray(Told::new(Order::new(t, f, n), key), stamp, &secret, &random)
}

#[test]
fn the_longer_letters() {
    let (page, mut both) = (page(), both());
    let mut tray = longer_tray(&page, &mut both);
    let rows = table(&page, "| keeper | block | 5 | 6..11 | 12 | 13 | 16 | 17 | 253 | 254 | 255 |");
    assert_eq!(rows.len(), 6);
    for row in rows {
        let slot = slot(&mut tray, number(row[0]));
        let words = [5, 6, 7, 8, 9, 10, 11, 12, 13, 16, 17, 253, 254, 255];
        let held = words.map(|at| word(slot, number(row[1]) as usize, at));
        let told: Vec<u32> = row[2..].iter().flat_map(|cell| numbers(cell)).collect();
        assert_eq!(held.to_vec(), told);
    }
}

#[test]
fn the_check() {
    let (page, mut both) = (page(), both());
    let rows = table(&page, "| case | words 0, 1 | words 254, 255 | number | place |");
    let [case, front, check, number_given, place] = rows[0][..] else { unreachable!() };
    assert_eq!(case, "C12");
    let mut words: Words = [0; WORDS];
    words[..2].copy_from_slice(&numbers(front));
    words[254..].copy_from_slice(&numbers(check));
    let mut slot = block::bytes(&words);
    slot.resize(SLOT, 0);
    let fault = Fault { number: number(number_given), place: number(place) };
    assert_eq!(both.read(&slot), Err(fault));
}

#[test]
fn letters_that_are_not_good() {
    let (page, mut both) = (page(), both());
    let mut tray = longer_tray(&page, &mut both);
    let good = slot(&mut tray, 7);
    let rows = table(&page, "| block | word | made | check | number | place |");
    assert_eq!(rows.len(), 22);
    for row in rows {
        let [block, word, made] = [0, 1, 2].map(|i| number(row[i]));
        let mut slot = good.to_vec();
        match row[3] {
            "new" => forge_word(&mut slot, block as usize, word as usize, made),
            "old" => set_word(&mut slot, block as usize, word as usize, made),
            other => panic!("'{other}' is no check"),
        }
        let fault = Fault { number: number(row[4]), place: number(row[5]) };
        assert_eq!(both.read(&slot), Err(fault), "{row:?}");
    }
}

#[test]
fn joins() {
    let (page, mut both) = (page(), both());
    let full = cut_byte(&mut both, 200, 100);
    let first = "| case | 1 | 2 | 3 | 4 | 5 | 6 | number | m | need | set | trials | secret |";
    let rows = table(&page, first);
    let cases: Vec<&str> = rows.iter().map(|row| row[0]).collect();
    assert_eq!(cases, ["C2", "", "C3", "C4", "C5", "C6", "C7", "C8"]);
    for row in rows {
        let mut tray = vec![0; TOLD.order.tray()];
        for (keeper, cell) in (1..).zip(&row[1..7]) {
            if let Some(word) = optional(cell) {
                exchange_slot(&mut tray, &full, keeper);
                lie(slot(&mut tray, keeper), 0, word);
            }
        }
        let expected = (joined_of(&row[7..12]), optional(row[12]));
        assert_eq!(join_byte(&mut both, TOLD, &tray), expected, "{row:?}");
    }
}

/// The numbers of a join in five cells.
fn joined_of(cells: &[&str]) -> Joined {
    let [number, usable, need, set, trials] = std::array::from_fn(|i| number(cells[i]));
    Joined { number, usable, need, set, trials }
}

/// The tray of a row of joins among two keys.
fn tray_of_two_keys(row: &[&str], both: &mut Both) -> Vec<u8> {
    let mut tray = cut_byte(both, 200, 100);
    let other = both.cut_tray(of_key(255), STAMP, &[0], &[200]);
    for (keeper, cell) in (1..).zip(&row[..6]) {
        match number(cell) {
            0 => {}
            255 => exchange_slot(&mut tray, &other, keeper),
            key => panic!("the page cuts nothing under key {key}"),
        }
    }
    tray
}

const TWO_KEYS: &str =
    "| 1 | 2 | 3 | 4 | 5 | 6 | key told | number | m | need | set | trials | secret |";

#[test]
fn joins_among_two_keys() {
    let (page, mut both) = (page(), both());
    let rows = table(&page, TWO_KEYS);
    assert_eq!(rows.len(), 6);
    for row in rows {
        let tray = tray_of_two_keys(&row, &mut both);
        let expected = (joined_of(&row[7..12]), optional(row[12]));
        assert_eq!(join_byte(&mut both, of_key(number(row[6])), &tray), expected, "{row:?}");
    }
}

/// Keeper 1's desk of this key.
fn desk_of(key: u32) -> Desk {
    Desk { told: of_key(key), keeper: 1 }
}

/// Makes the calls of the page's first table of a desk, and gives the slot that is then held.
fn held_at_last(page: &str, both: &mut Both) -> Vec<u8> {
    let first =
        "| letter of key | stamp | random word | letter of keeper | number | stamp held afterwards |";
    let rows = table(page, first);
    assert_eq!(rows.len(), 11);
    let (desk, mut held) = (desk_of(0), vec![0; SLOT]);
    for row in rows {
        let [key, stamp, random, keeper, number] = [0, 1, 2, 3, 4].map(|i| number(row[i]));
        let mut tray = both.cut_tray(of_key(key), stamp, &[200], &[random as u16]);
        let stored = both.store(desk, &mut held, slot(&mut tray, keeper));
        assert_eq!(stored, Stored { number, place: 0 }, "{row:?}");
        let stamp_held = Letter::read(&held).ok().map(|letter| letter.head.stamp);
        assert_eq!(stamp_held, optional(row[5]), "{row:?}");
        assert_eq!(both.fetch(desk, &held), if stamp_held.is_some() { 0 } else { 17 });
    }
    held
}

#[test]
fn a_desk() {
    held_at_last(&page(), &mut both());
}

#[test]
fn a_desk_told_two_keys() {
    let (page, mut both) = (page(), both());
    let mut held = held_at_last(&page, &mut both);
    let first = "| key told | letter of key | stamp | number | key held | stamp held | fetching |";
    let rows = table(&page, first);
    assert_eq!(rows.len(), 5);
    for row in rows {
        let [told, key, stamp, number, key_held, stamp_held, fetched] =
            std::array::from_fn(|i| number(row[i]));
        let tray = both.cut_tray(of_key(key), stamp, &[200], &[100]);
        let stored = both.store(desk_of(told), &mut held, &tray[..SLOT]);
        assert_eq!(stored, Stored { number, place: 0 }, "{row:?}");
        let head = both.read(&held).expect("a good letter is held");
        assert_eq!((head.told.key, head.stamp), (key_held, stamp_held), "{row:?}");
        assert_eq!(both.fetch(desk_of(told), &held), fetched, "{row:?}");
    }
}

/// The tray of a row of picks.
fn tray_of_picks(row: &[&str], both: &mut Both) -> Vec<u8> {
    tray_of_letters(row, both, |stamp, length| (TOLD, stamp, length))
}

/// A tray in which each cell's keeper has a letter as its first two numbers say, with the third for every
/// share word where there is one, or nothing.
fn tray_of_letters(
    row: &[&str],
    both: &mut Both,
    said: impl Fn(u32, u32) -> (Told, u32, u32),
) -> Vec<u8> {
    let mut tray = vec![0; TOLD.order.tray()];
    for (keeper, cell) in (1..).zip(&row[..6]) {
        let numbers: Vec<u32> = cell.split('/').filter_map(optional).collect();
        let [first, second, made @ ..] = &numbers[..] else {
            assert_eq!(*cell, "-");
            continue;
        };
        let (told, stamp, length) = said(*first, *second);
        let length = length as usize;
        let cut = both.cut_tray(told, stamp, &vec![200; length], &vec![100; length]);
        exchange_slot(&mut tray, &cut, keeper);
        for &word in made {
            (0..length).for_each(|place| lie(slot(&mut tray, keeper), place, word));
        }
    }
    tray
}

const PICKS: &str = "| 1 | 2 | 3 | 4 | 5 | 6 | number | stamp | length |";

#[test]
fn picks() {
    let (page, mut both) = (page(), both());
    let rows = table(&page, PICKS);
    assert_eq!(rows.len(), 12);
    for row in rows {
        let tray = tray_of_picks(&row, &mut both);
        let [number, stamp, length] = [6, 7, 8].map(|i| number(row[i]));
        assert_eq!(both.pick(TOLD, &tray), Picked { number, stamp, length }, "{row:?}");
    }
}

#[test]
fn picks_among_two_keys() {
    let (page, mut both) = (page(), both());
    let first = "| 1 | 2 | 3 | 4 | 5 | 6 | key told | number | stamp | length |";
    let rows = table(&page, first);
    assert_eq!(rows.len(), 8);
    for row in rows {
        let tray = tray_of_letters(&row, &mut both, |key, stamp| (of_key(key), stamp, 1));
        let [key, number, stamp, length] = [6, 7, 8, 9].map(|i| number(row[i]));
        assert_eq!(both.pick(of_key(key), &tray), Picked { number, stamp, length }, "{row:?}");
    }
}

/// C1's tray and the page's second one, and the differences that the page has.
fn compared_trays(page: &str, both: &mut Both) -> (Vec<u8>, Vec<u8>, Vec<Difference>) {
    let first = cut_byte(both, 200, 100);
    let mut second = first.clone();
    for row in table(page, "| byte | in the first | in the second |") {
        let [at, before, after] = [0, 1, 2].map(|i| number(row[i]));
        assert_eq!(u32::from(first[at as usize]), before, "{row:?}");
        second[at as usize] = after as u8;
    }
    let rows = table(page, "| slot | block | word | first | second |");
    let told = rows.iter().map(|row| {
        let [slot, block, word, first, second] = [0, 1, 2, 3, 4].map(|i| number(row[i]) as u16);
        Difference { slot, block, word, first, second }
    });
    (first, second, told.collect())
}

#[test]
fn a_comparison() {
    let (page, mut both) = (page(), both());
    let (first, second, told) = compared_trays(&page, &mut both);
    let rows = table(&page, "| places lent | number | count | places written |");
    assert_eq!(rows.len(), 4);
    for row in rows {
        let [places, number, count, written] = [0, 1, 2, 3].map(|i| number(row[i]));
        let before = Difference { slot: 9, block: 9, word: 9, first: 9, second: 9 };
        let [mut list, mut left] = [(); 2].map(|()| vec![before; places as usize]);
        left[..written as usize].copy_from_slice(&told[..written as usize]);
        let compared = both.compare(TOLD.order, &first, &second, &mut list);
        assert_eq!(compared, Compared { number, count }, "{row:?}");
        assert_eq!(list, left, "{row:?}");
    }
}

/// What the program `report` and the second program both write on an input.
fn written_on(input: &[u8]) -> String {
    let mut process = program("programs/report")
        .stdin(Stdio::piped())
        .stdout(Stdio::piped())
        .spawn()
        .expect("the gate builds the report and what runs it");
    let mut pipe = process.stdin.take().expect("it was asked for");
    pipe.write_all(input).expect("a pipe has room for a tray of six slots");
    drop(pipe);
    let written = process.wait_with_output().expect("the program ends").stdout;
    assert_eq!(written, report(input));
    String::from_utf8(written).expect("what it writes is text")
}

/// Sees that the report on a tray is what stands below this heading.
fn is_reported(page: &str, heading: &str, key: u8, tray: &[u8]) {
    let lines: String = fenced(page, heading).iter().map(|line| format!("{line}\n")).collect();
    assert_eq!(written_on(&[&[1, 1, 6, key], tray].concat()), lines);
}

#[test]
fn a_report() {
    let mut tray = cut_byte(&mut both(), 200, 100);
    lie(slot(&mut tray, 3), 0, 0);
    slot(&mut tray, 6).fill(0);
    is_reported(&page(), "### A report", 0, &tray);
}

#[test]
fn a_report_of_a_refusal() {
    let page = page();
    let tray = tray_of_picks(&table(&page, PICKS)[4], &mut both());
    is_reported(&page, "### A report of a refusal", 0, &tray);
}

#[test]
fn a_report_of_another_key() {
    let page = page();
    let tray = tray_of_two_keys(&table(&page, TWO_KEYS)[1], &mut both());
    is_reported(&page, "### A report of another key", 255, &tray);
}

#[test]
fn reports_of_short_inputs() {
    let page = page();
    let rows = table(&page, "| bytes | answer |");
    assert_eq!(rows.len(), 7);
    for row in rows {
        let bytes = if row[0] == "-" { vec![] } else { numbers(row[0]) };
        let input: Vec<u8> = bytes.into_iter().map(|byte| byte as u8).collect();
        let answer = format!("answer {}\n", number(row[1]));
        assert_eq!(written_on(&input), answer, "{row:?}");
    }
}
