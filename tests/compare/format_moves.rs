//! The move in `docs/FORMAT.md`, the page of this file, beside the library and the second program: its
//! worked numbers are read as they stand there, and both must give them.

use second::both::Both;
use second::damage::{share, slot, word};
use second::document::{document, number, numbers, table};
use second::moving::{CutAgain, Move, Weighed};
use second::order::{Order, SLOT};
use second::peer::Peer;
use second::solve::factors;
use second::told::Told;

/// The order of the old letters, and the stamp that they have.
const OLD: Order = Order { t: 1, f: 1, n: 6 };
const STAMP: u32 = 7;

const MOVE: Move =
    Move { old: OLD, new: Told { order: Order { t: 2, f: 0, n: 3 }, key: 0 }, length: 1, stamp: 9 };

fn page() -> String {
    document("FORMAT.md")
}

fn both() -> Both {
    Both::over(Peer::start())
}

/// The tray of C1.
fn old_tray(both: &mut Both) -> Vec<u8> {
    both.cut_tray(Told { order: OLD, key: 0 }, STAMP, &[200], &[100])
}

fn words(cell: &str) -> Vec<u16> {
    numbers(cell).into_iter().map(|word| word as u16).collect()
}

/// The first share word of each new keeper.
fn shares(tray: &mut [u8]) -> Vec<u32> {
    (1..=MOVE.new.order.n).map(|keeper| share(slot(tray, keeper), 0)).collect()
}

/// Each old keeper of the page, and what it cuts for the new ones.
fn cut_again(page: &str, both: &mut Both) -> Vec<(u32, Vec<u8>)> {
    let first =
        "| old keeper | its share word | its random words | its factor | words for 1, 2, 3 |";
    let mut old = old_tray(both);
    let rows = table(page, first);
    let told: Vec<u32> = rows.iter().map(|row| number(row[3])).collect();
    assert_eq!(told, factors(&[2, 5]), "the factors of both");
    let cut = rows.into_iter().map(|row| {
        let (keeper, mut tray) = (number(row[0]), vec![99; MOVE.new.order.tray()]);
        let letter = slot(&mut old, keeper);
        assert_eq!(share(letter, 0), number(row[1]));
        let answer = both.move_cut(MOVE, keeper, letter, &words(row[2]), &mut tray);
        assert_eq!(answer, CutAgain { number: 0, place: 0 });
        assert_eq!(shares(&mut tray), numbers(row[4]), "old keeper {keeper}");
        (keeper, tray)
    });
    cut.collect()
}

/// The sub-letters from these old keepers for these new ones, end to end.
fn handed(cut: &mut [(u32, Vec<u8>)], from: &[u32], new: &[u32]) -> Vec<u8> {
    let letter = |(&from, &new): (&u32, &u32)| {
        let (_, tray) = cut.iter_mut().find(|(keeper, _)| *keeper == from).expect("one that cut");
        slot(tray, new).to_vec()
    };
    from.iter().zip(new).flat_map(letter).collect()
}

#[test]
fn the_header_of_a_sub_letter() {
    let (page, mut both) = (page(), both());
    let mut cut = cut_again(&page, &mut both);
    let mut slot = handed(&mut cut, &[5], &[3]);
    let header: Vec<String> = (0..16).map(|i| word(&mut slot, 0, i).to_string()).collect();
    let sentence = format!("old keeper 5's sub-letter for new keeper 3 are {}.", header.join(", "));
    let whole = page.split_whitespace().collect::<Vec<_>>().join(" ");
    assert!(whole.contains(&sentence), "{sentence}");
}

#[test]
fn what_the_new_keepers_weigh() {
    let (page, mut both) = (page(), both());
    let mut cut = cut_again(&page, &mut both);
    let rows = table(&page, "| words of 1, 2, 3 | random words |");
    let mut moved = vec![99; MOVE.new.order.tray()];
    for new in 1..=MOVE.new.order.n {
        let letters = handed(&mut cut, &[2, 5], &[new, new]);
        let answer = both.move_weigh(MOVE, &[2, 5], new, &letters, slot(&mut moved, new));
        assert_eq!(answer, Weighed { number: 0, letter: 0, place: 0 });
    }
    assert_eq!(shares(&mut moved), numbers(rows[0][0]));
    let expected = both.cut_tray(MOVE.new, MOVE.stamp, &[200], &words(rows[0][1]));
    assert!(moved == expected, "the new tray is the cut's");
}

#[test]
fn cuttings_that_are_refused() {
    let (page, mut both) = (page(), both());
    let mut old = old_tray(&mut both);
    for row in table(&page, "| old keeper told | new stamp | answer |") {
        let mut tray = vec![99; MOVE.new.order.tray()];
        let told = Move { stamp: number(row[1]), ..MOVE };
        let answer = both.move_cut(told, number(row[0]), slot(&mut old, 2), &[10, 20], &mut tray);
        assert_eq!(answer, CutAgain { number: number(row[2]), place: 0 }, "{row:?}");
    }
}

#[test]
fn weighings_of_two_sub_letters() {
    let (page, mut both) = (page(), both());
    let mut cut = cut_again(&page, &mut both);
    for row in table(&page, "| old keepers told | from | for | number | letter |") {
        let letters = handed(&mut cut, &numbers(row[1]), &numbers(row[2]));
        let mut letter = vec![99; SLOT];
        let answer = both.move_weigh(MOVE, &numbers(row[0]), 3, &letters, &mut letter);
        let expected = Weighed { number: number(row[3]), letter: number(row[4]), place: 0 };
        assert_eq!(answer, expected, "{row:?}");
    }
}
