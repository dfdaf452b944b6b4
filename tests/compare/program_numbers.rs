//! The program `csalgodes` and the numbers of the library: for each a command that ends with it, explains
//! it, and writes nothing.

use second::cases::{self, Tray};
use second::compare::{compare, Compared, Difference};
use second::damage::{forge_word, set_word, slot};
use second::letter::{Fault, Head, Letter};
use second::order::Order;
use second::random::Random;
use second::report::report_of;
use second::run::{each, told};
use second::scratch::Scratch;
use second::told::Told;

const TOLD: Told = Told { order: Order { t: 2, f: 1, n: 8 }, key: 9 };

/// A secret and a tray of it, in files.
fn lay_out(length: usize) -> (Scratch, Tray) {
    let random = &Random::new(271);
    let scratch = Scratch::new();
    let tray = Tray::cut(TOLD, 5, length, random);
    scratch.write("secret", &tray.secret);
    scratch.tray("tray", &tray.bytes);
    scratch.write("desk", tray.letter(3));
    (scratch, tray)
}

/// Each of these lines ends with the number, and changes nothing.
fn answer(scratch: &Scratch, number: u32, lines: &[&str]) {
    let before = scratch.look();
    each(lines, |line| {
        let ended = scratch.run(line);
        ended.answers(number);
        // a join writes its answer there, and the others write nothing
        let text = if line.starts_with("join") { ended.wrote() } else { "answer".into() };
        assert!(text.contains("answer"), "{ended:?}");
    });
    assert_eq!(scratch.look(), before);
}

#[test]
fn number_1() {
    let (scratch, _) = lay_out(60);
    scratch.folder("empty");
    answer(
        &scratch,
        1,
        &[
            "cut --order 0,0,8 --key 9 --stamp 1 secret letters",
            "cut --order 8,0,16 --key 9 --stamp 1 secret letters",
            "cut --order 2,3,16 --key 9 --stamp 1 secret letters",
            "cut --order 2,1,6 --key 9 --stamp 1 secret letters",
            "cut --order 2,1,17 --key 9 --stamp 1 secret letters",
            "cut --order 2,1,8 --key 256 --stamp 1 secret letters",
            "store --order 2,1,8 --key 256 --keeper 3 desk tray/3",
            "store --order 2,1,8 --key 9 --keeper 0 desk tray/3",
            "store --order 2,1,8 --key 9 --keeper 9 desk tray/3",
            "store --order 2,1,6 --key 9 --keeper 3 new-desk tray/3",
            "fetch --order 2,1,8 --key 9 --keeper 9 desk out",
            "fetch --order 2,1,6 --key 9 --keeper 3 desk out",
            "join --order 2,1,6 --key 9 tray joined",
            "join --order 2,1,8 --key 256 tray joined",
            "join --order 2,1,6 --key 9 --stamp 5 --length 60 tray joined",
            "compare --order 2,1,6 tray tray",
            "compare --order 2,1,4294967295 tray empty",
        ],
    );
}

/// Of an unlawful order no slot is looked at, and so nothing is said of any.
#[test]
fn number_1_before_any_slot() {
    let (scratch, _) = lay_out(60);
    scratch.folder("empty");
    let told =
        ["--order 2,1,6 --key 9", "--order 2,1,8 --key 256", "--order 9,9,4294967295 --key 9"];
    for told in told {
        let ended = scratch.run(&format!("join {told} empty joined"));
        ended.answers(1);
        assert_eq!(ended.wrote(), "answer 1\n");
        assert_eq!(ended.said().lines().count(), 1, "{ended:?}");
    }
    let ended = scratch.run("compare --order 2,1,6 empty empty");
    ended.answers(1);
    assert_eq!((ended.wrote().as_str(), ended.said().lines().count()), ("", 1), "{ended:?}");
}

#[test]
fn number_2() {
    let (scratch, _) = lay_out(60);
    scratch.write("nothing", b"");
    scratch.write("much", &[1; 953]);
    scratch.write("most", &[1; 952]);
    answer(
        &scratch,
        2,
        &[
            "cut --order 2,1,8 --key 9 --stamp 1 nothing letters",
            "cut --order 2,1,8 --key 9 --stamp 1 much letters",
            "cut --order 2,1,8 --key 9 --stamp 0 much letters",
            "join --order 2,1,8 --key 9 --stamp 5 --length 0 tray joined",
            "join --order 2,1,8 --key 9 --stamp 5 --length 953 tray joined",
            "join --order 2,1,8 --key 9 --stamp 0 --length 4294967295 tray joined",
        ],
    );
    scratch.run("cut --order 2,1,8 --key 9 --stamp 1 most letters").is_silent();
}

#[test]
fn number_3() {
    let (scratch, _) = lay_out(60);
    answer(
        &scratch,
        3,
        &[
            "cut --order 2,1,8 --key 9 --stamp 0 secret letters",
            "join --order 2,1,8 --key 9 --stamp 0 --length 60 tray joined",
        ],
    );
}

#[test]
fn number_4() {
    let (scratch, tray) = lay_out(60);
    scratch.write("short", &tray.letter(3)[..2047]);
    scratch.write("long", &[tray.letter(3), &[0]].concat());
    scratch.write("empty", b"");
    for name in ["short", "long", "empty"] {
        answer(
            &scratch,
            4,
            &[
                &format!("show {name}"),
                &format!("store --order 2,1,8 --key 9 --keeper 3 desk {name}"),
                &format!("store --order 2,1,8 --key 9 --keeper 3 new-desk {name}"),
                &format!("store --order 2,1,8 --key 9 --keeper 3 {name} tray/3"),
                &format!("fetch --order 2,1,8 --key 9 --keeper 3 {name} out"),
            ],
        );
    }
}

/// Fewer than t+f+1 letters: of the order and key, of the stamp, or of the tray.
#[test]
fn number_6() {
    let (scratch, tray) = lay_out(60);
    scratch.tray("few", &tray.bytes[..3 * 2048]);
    let before = scratch.look();
    for line in [
        "join --order 2,1,8 --key 10 tray joined",
        "join --order 2,1,9 --key 9 tray joined",
        "join --order 2,1,8 --key 9 --stamp 6 --length 60 tray joined",
        "join --order 2,1,8 --key 9 --stamp 5 --length 61 tray joined",
        "join --order 2,1,8 --key 9 few joined",
    ] {
        let ended = scratch.run(line);
        ended.answers(6);
        assert_eq!(ended.wrote(), "answer 6\n", "{ended:?}");
    }
    assert_eq!(scratch.look(), before);
}

/// The letters of a tray do not join: the lines tell of it, and the secret is not written.
fn does_not_join(tray: &Tray, number: u32, trials: u32) {
    let scratch = Scratch::new();
    scratch.tray("tray", &tray.bytes);
    let before = scratch.look();
    let (stamp, length) = (tray.stamp, tray.length());
    let lines = report_of(tray.told, stamp, length, &tray.bytes);
    assert!(lines.ends_with(&format!("answer {number}\n")));
    for given in [String::new(), format!("--stamp {stamp} --length {length}")] {
        let ended = scratch.run(&format!("join {} {given} tray joined", told(tray.told)));
        ended.answers(number);
        assert_eq!(ended.wrote(), format!("{lines}trials {trials}\n"), "{ended:?}");
        let ended = scratch.run(&format!("join {} {given} tray -", told(tray.told)));
        ended.answers(number);
        assert!(ended.text.is_empty() && ended.said().starts_with(&lines), "{ended:?}");
    }
    assert_eq!(scratch.look(), before);
}

#[test]
fn number_7() {
    let random = &Random::new(272);
    let mut tray = Tray::cut(TOLD, 5, 60, random);
    tray.lie_apart(&[2, 5], random);
    does_not_join(&tray, 7, 56);
}

#[test]
fn number_8() {
    let mut tray = Tray::cut(TOLD, 5, 60, &Random::new(273));
    tray.move_to_256(17);
    does_not_join(&tray, 8, 1);
}

/// A letter of two blocks, damaged in one of them so that it reads as this number.
fn damaged(number: u32, block: usize) -> Vec<u8> {
    let mut letter = Tray::cut(TOLD, 6, 300, &Random::new(274)).letter(3).to_vec();
    match number {
        9 => set_word(&mut letter, block, 100, 257),
        10 => letter[block * 512 + 101] ^= 1,
        11 => forge_word(&mut letter, block, 0, 82),
        12 => forge_word(&mut letter, block, 14, 1),
        _ => forge_word(&mut letter, 1, 253, 1),
    }
    let place = if number == 13 { 0 } else { block as u32 };
    assert_eq!(Letter::read(&letter).err(), Some(Fault { number, place }));
    letter
}

#[test]
fn numbers_9_to_12_and_their_blocks() {
    let (scratch, _) = lay_out(60);
    for number in 9..=12 {
        for block in 0..2 {
            scratch.write("letter", &damaged(number, block));
            let before = scratch.look();
            for desk in ["desk", "new-desk"] {
                let store = format!("store {} --keeper 3 {desk} letter", told(TOLD));
                scratch.run(&store).answers_in(number, block as u32);
            }
            let shown = scratch.run("show letter");
            shown.answers_in(number, block as u32);
            assert!(shown.text.is_empty(), "{shown:?}");
            assert_eq!(scratch.look(), before);
        }
    }
}

#[test]
fn number_13() {
    let (scratch, _) = lay_out(60);
    scratch.write("letter", &damaged(13, 0));
    let store = format!("store {} --keeper 3 desk letter", told(TOLD));
    answer(&scratch, 13, &["show letter", &store]);
}

/// What the desk itself judges: older, other bytes, of another order, key or keeper.
#[test]
fn numbers_14_to_16() {
    let random = &Random::new(275);
    let (scratch, tray) = lay_out(60);
    let write =
        |name: &str, head: Head| scratch.write(name, &cases::letter_of(head, random).slot());
    let head = Head { told: TOLD, keeper: 3, stamp: 5, length: 60 };
    write("older", Head { stamp: 4, ..head });
    write("other-bytes", head);
    write("other-length", Head { length: 61, ..head });
    write("other-key", Head { told: Told { key: 10, ..TOLD }, stamp: 6, ..head });
    write(
        "other-order",
        Head { told: Told { order: Order::new(2, 1, 9), ..TOLD }, stamp: 6, ..head },
    );
    scratch.write("other-keeper", tray.letter(4));
    let store = |letter: &str| format!("store {} --keeper 3 desk {letter}", told(TOLD));
    answer(&scratch, 14, &[&store("older")]);
    answer(&scratch, 15, &[&store("other-bytes"), &store("other-length")]);
    answer(&scratch, 16, &[&store("other-key"), &store("other-order"), &store("other-keeper")]);
}

/// Nothing of this desk's is held: it is new, or empty, or damaged, or told something else.
#[test]
fn number_17() {
    let (scratch, tray) = lay_out(60);
    scratch.write("empty", &[0; 2048]);
    let mut bytes = tray.bytes.clone();
    slot(&mut bytes, 3)[40] ^= 1;
    scratch.write("damaged", slot(&mut bytes, 3));
    answer(
        &scratch,
        17,
        &[
            "fetch --order 2,1,8 --key 9 --keeper 3 new-desk out",
            "fetch --order 2,1,8 --key 9 --keeper 3 empty out",
            "fetch --order 2,1,8 --key 9 --keeper 3 damaged out",
            "fetch --order 2,1,8 --key 9 --keeper 4 desk out",
            "fetch --order 2,1,8 --key 8 --keeper 3 desk out",
            "fetch --order 2,1,9 --key 9 --keeper 3 desk out",
            "fetch --order 2,1,8 --key 9 --keeper 3 new-desk -",
        ],
    );
}

/// What a comparison writes, by the second program, and its status.
fn compared(order: Order, first: &[u8], second: &[u8]) -> (String, i32) {
    let nothing = Difference { slot: 0, block: 0, word: 0, first: 0, second: 0 };
    let mut list = vec![nothing; first.len() / 2];
    let Compared { number, count } = compare(order, first, second, &mut list);
    assert_eq!(number, 0);
    let line = |place: &Difference| {
        let Difference { slot, block, word, first, second } = place;
        format!("slot {slot} block {block} word {word}: {first} became {second}\n")
    };
    let lines: String = list[..count as usize].iter().map(line).collect();
    match count {
        0 => ("no word differs\n".into(), 0),
        1 => (lines + "1 word differs\n", 99),
        _ => (lines + &format!("{count} words differ\n"), 99),
    }
}

/// 0 where no word differs, 99 where one does, with a line for each.
#[test]
fn comparisons() {
    let random = &Random::new(276);
    let scratch = Scratch::new();
    let order = TOLD.order;
    let tray = Tray::cut(TOLD, 5, 60, random);
    let mut one_word = tray.bytes.clone();
    slot(&mut one_word, 6)[18] ^= 0x12;
    let mut some_words = one_word.clone();
    (0..20).for_each(|_| some_words[random.below(order.tray())] ^= 1);
    let all_words: Vec<u8> = tray.bytes.iter().map(|byte| !byte).collect();
    let trays = [tray.bytes.clone(), one_word, some_words, all_words];
    for (name, bytes) in ["1", "2", "3", "4"].iter().zip(&trays) {
        scratch.tray(name, bytes);
    }
    let before = scratch.look();
    for (i, first) in trays.iter().enumerate() {
        for (k, second) in trays.iter().enumerate() {
            let ended = scratch.run(&format!("compare --order 2,1,8 {} {}", i + 1, k + 1));
            let (text, status) = compared(order, first, second);
            assert_eq!((ended.status, ended.said().as_str()), (status, ""), "{i} {k}");
            assert!(ended.wrote() == text, "{i} {k}: {ended:?}");
        }
    }
    assert_eq!(scratch.look(), before);
}
