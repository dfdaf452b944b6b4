//! The second program held to the page's own numbers, before anything is held to it.

use second::block::{check, Words};
use second::cut::cut;
use second::damage::{exchange_slot, forge_word, lie, share, slot, word};
use second::field::{add, multiply, power, reciprocal};
use second::join::{join, Joined};
use second::letter::{Fault, Letter};
use second::moving::{CutAgain, Move, Weighed};
use second::order::{Order, SLOT};
use second::pick::{pick, Picked};
use second::report::report;
use second::solve::{factors, subsets};
use second::sub_letter::SubLetter;
use second::told::Told;

const TOLD: Told = Told { order: Order { t: 1, f: 1, n: 6 }, key: 0 };
const STAMP: u32 = 7;

/// One byte cut under the page's order, with one random word.
fn page_tray(secret: u8, random: u16) -> Vec<u8> {
    let mut tray = vec![0; TOLD.order.tray()];
    assert_eq!(cut(TOLD, STAMP, &[secret], &[random], &mut tray), 0);
    tray
}

fn share_words(tray: &mut [u8], keepers: impl IntoIterator<Item = u32>) -> Vec<u32> {
    keepers.into_iter().map(|keeper| share(slot(tray, keeper), 0)).collect()
}

/// The join of a tray in which the keepers listed hold these words and the others nothing.
fn join_of(words: &[(u32, u32)]) -> (Joined, u8) {
    let full = page_tray(200, 100);
    let mut tray = vec![0; TOLD.order.tray()];
    for &(keeper, word) in words {
        exchange_slot(&mut tray, &full, keeper);
        lie(slot(&mut tray, keeper), 0, word);
    }
    let mut room = [99];
    let joined = join(TOLD, STAMP, 1, &tray, &mut room);
    (joined, room[0])
}

fn refused(number: u32, usable: u32, need: u32, trials: u32) -> (Joined, u8) {
    (Joined { number, usable, need, set: 0, trials }, 99)
}

#[test]
fn c1_share_words() {
    let words = share_words(&mut page_tray(200, 100), 1..=6);
    assert_eq!(words, [43, 143, 243, 86, 186, 29]);
}

#[test]
fn c2_one_liar_of_six() {
    let (joined, byte) = join_of(&[(1, 43), (2, 143), (3, 0), (4, 86), (5, 186), (6, 29)]);
    assert_eq!(joined, Joined { number: 0, usable: 6, need: 5, set: 59, trials: 1 });
    assert_eq!(byte, 200);
}

#[test]
fn c2_with_keeper_1_the_liar() {
    let (joined, byte) = join_of(&[(1, 0), (2, 143), (3, 243), (4, 86), (5, 186), (6, 29)]);
    assert_eq!(joined, Joined { number: 0, usable: 6, need: 5, set: 62, trials: 6 });
    assert_eq!(byte, 200);
}

#[test]
fn c3_two_liars_of_six() {
    let words = [(1, 43), (2, 143), (3, 0), (4, 0), (5, 186), (6, 29)];
    assert_eq!(join_of(&words), refused(7, 6, 5, 15));
}

#[test]
fn c4_one_liar_of_four() {
    let (joined, byte) = join_of(&[(1, 43), (2, 143), (3, 0), (4, 86)]);
    assert_eq!(joined, Joined { number: 0, usable: 4, need: 3, set: 11, trials: 1 });
    assert_eq!(byte, 200);
}

#[test]
fn c5_three_unaltered() {
    let (joined, byte) = join_of(&[(1, 43), (2, 143), (3, 243)]);
    assert_eq!(joined, Joined { number: 0, usable: 3, need: 3, set: 7, trials: 1 });
    assert_eq!(byte, 200);
}

#[test]
fn c6_one_liar_of_three() {
    assert_eq!(join_of(&[(1, 43), (2, 143), (3, 0)]), refused(7, 3, 3, 3));
}

#[test]
fn c7_two_letters() {
    assert_eq!(join_of(&[(1, 43), (2, 143)]), refused(6, 2, 3, 0));
}

#[test]
fn c8_a_constant_of_256() {
    let (joined, byte) = join_of(&[(1, 0), (2, 1), (3, 2)]);
    assert_eq!(joined, Joined { number: 8, usable: 3, need: 3, set: 7, trials: 1 });
    assert_eq!(byte, 99);
}

#[test]
fn c9_random_word_0() {
    assert_eq!(share_words(&mut page_tray(200, 0), 1..=6), [200; 6]);
}

#[test]
fn c10_two_coefficients() {
    let told = Told::new(Order::new(2, 0, 16), 0);
    let mut tray = vec![0; told.order.tray()];
    assert_eq!(cut(told, 1, &[5], &[7, 11], &mut tray), 0);
    assert_eq!(share_words(&mut tray, [1, 2, 3, 16]), [23, 63, 125, 106]);
}

#[test]
fn c11_one_random_word_for_each_other_secret() {
    let giving: Vec<u16> =
        (0..=256).filter(|&word| share_words(&mut page_tray(0, word), [2]) == [143]).collect();
    assert_eq!(giving, [200]);
}

#[test]
fn c12_check_words() {
    let mut words: Words = [0; 256];
    words[..2].copy_from_slice(&[83, 2]);
    assert_eq!(check(&words), [85, 89]);
}

#[test]
fn reciprocals() {
    for (a, b) in [(0, 0), (2, 129), (3, 86), (16, 241), (256, 256)] {
        assert_eq!(reciprocal(a), b);
    }
    assert!((1..257).all(|a| multiply(a, reciprocal(a)) == 1));
}

/// The lists that the join goes through: each rises, and each comes after the one before it.
#[test]
fn sets_in_dictionary_order() {
    for (of, size) in (2..=16).flat_map(|of| (2..=8).map(move |size| (of, size))) {
        let sets = subsets(of, size);
        assert!(sets.iter().all(|set| set.windows(2).all(|pair| pair[0] < pair[1])));
        assert!(sets.windows(2).all(|pair| pair[0] < pair[1]));
        let counted = (0..1u32 << of).filter(|bits| bits.count_ones() as usize == size);
        assert_eq!(sets.len(), counted.count(), "{size} of {of}");
    }
    assert_eq!(subsets(16, 8).len(), 12_870);
}

#[test]
fn a_slot_of_zeros_is_11() {
    assert_eq!(Letter::read(&[0; SLOT]), Err(Fault { number: 11, place: 0 }));
}

/// The key stands in word 13, and nothing else of a letter hangs on it but the check.
#[test]
fn word_13_is_the_key() {
    let (mut keyed, plain) = (page_tray(200, 100), page_tray(200, 100));
    let told = Told { key: 255, ..TOLD };
    assert_eq!(cut(told, STAMP, &[200], &[100], &mut keyed), 0);
    for keeper in 1..=6 {
        forge_word(slot(&mut keyed, keeper), 0, 13, 0);
    }
    assert!(keyed == plain);
    assert_eq!(cut(Told { key: 256, ..TOLD }, STAMP, &[200], &[100], &mut keyed), 1);
}

#[test]
fn inputs_that_end_before_the_tray() {
    let short: [(&[u8], &str); 6] = [
        (&[], "answer 4\n"),
        (&[1, 1], "answer 4\n"),
        (&[1, 1, 6], "answer 4\n"),
        (&[1, 1, 5], "answer 1\n"),
        (&[1, 1, 6, 0], "answer 4\n"),
        (&[1, 1, 5, 0], "answer 1\n"),
    ];
    for (input, text) in short {
        assert_eq!(String::from_utf8(report(input)).as_deref(), Ok(text), "{input:?}");
    }
}

#[test]
fn the_report_of_the_page() {
    let mut tray = page_tray(200, 100);
    lie(slot(&mut tray, 3), 0, 0);
    slot(&mut tray, 6).fill(0);
    let text = "key 0 stamp 7 length 1\n\
                keeper 1 agrees\n\
                keeper 2 agrees\n\
                keeper 3 differs\n\
                keeper 4 agrees\n\
                keeper 5 agrees\n\
                keeper 6 absent\n\
                usable 5 need 4 agree 4\n\
                answer 0\n";
    let written = report(&[&[1, 1, 6, 0], tray.as_slice()].concat());
    assert_eq!(String::from_utf8(written).as_deref(), Ok(text));
}

/// A tray in which keepers 1 to 3 hold these words under stamp 7, and keepers 4 to 6 under stamp 9.
fn two_groups(words: [u32; 6]) -> Vec<u8> {
    let mut tray = page_tray(200, 100);
    for (keeper, word) in (1..).zip(words) {
        let slot = slot(&mut tray, keeper);
        lie(slot, 0, word);
        if keeper > 3 {
            forge_word(slot, 0, 9, 9);
        }
    }
    tray
}

fn picked(number: u32, stamp: u32, length: u32) -> Picked {
    Picked { number, stamp, length }
}

#[test]
fn the_pick_goes_down_to_what_joins() {
    let newer = two_groups([43, 143, 243, 86, 186, 29]);
    assert_eq!(pick(TOLD, &newer), picked(0, 9, 1));
    let spoiled = two_groups([43, 143, 243, 86, 186, 0]);
    assert_eq!(pick(TOLD, &spoiled), picked(0, 7, 1));
    let beyond = two_groups([43, 143, 243, 3, 4, 5]);
    assert_eq!(pick(TOLD, &beyond), picked(0, 7, 1));
}

#[test]
fn the_pick_of_groups_that_do_not_join() {
    assert_eq!(pick(TOLD, &two_groups([43, 143, 0, 86, 186, 0])), picked(7, 9, 1));
    assert_eq!(pick(TOLD, &two_groups([43, 143, 0, 3, 4, 5])), picked(8, 9, 1));
    assert_eq!(pick(TOLD, &two_groups([0, 1, 2, 86, 186, 0])), picked(7, 9, 1));
    let mut few = two_groups([43, 143, 243, 86, 186, 29]);
    [1, 6].into_iter().for_each(|keeper| slot(&mut few, keeper).fill(0));
    assert_eq!(pick(TOLD, &few), picked(6, 0, 0));
}

#[test]
fn the_report_of_groups_that_do_not_join() {
    let text = "key 0 stamp 9 length 1\n\
                keeper 1 absent\n\
                keeper 2 absent\n\
                keeper 3 absent\n\
                keeper 4 present\n\
                keeper 5 present\n\
                keeper 6 present\n\
                usable 3 need 3 agree 0\n\
                answer 7\n";
    let tray = two_groups([43, 143, 0, 86, 186, 0]);
    let written = report(&[&[1, 1, 6, 0], tray.as_slice()].concat());
    assert_eq!(String::from_utf8(written).as_deref(), Ok(text));
}

#[test]
fn factors_to_zero() {
    assert_eq!(factors(&[1, 2]), [2, 256]);
    assert_eq!(factors(&[1, 2, 3]), [3, 254, 1]);
    assert_eq!(factors(&[3, 1, 2]), [1, 3, 254]);
    assert_eq!(factors(&[2, 3]), [3, 255]);
}

/// By its factors each set of 2 to 8 keepers carries 1 to 1, and x, x^2 and so on to 0.
#[test]
fn factors_of_every_set() {
    for set in (2..=8).flat_map(|size| subsets(16, size)) {
        let points: Vec<u32> = set.into_iter().map(|index| index as u32 + 1).collect();
        let factors = factors(&points);
        for degree in 0..points.len() as u32 {
            let terms = points.iter().zip(&factors).map(|(&x, &c)| multiply(c, power(x, degree)));
            assert_eq!(terms.fold(0, add), u32::from(degree == 0), "{points:?}");
        }
    }
}

/// The page's letters go to two keepers, under stamp 9.
const MOVE: Move = Move {
    old: TOLD.order,
    new: Told { order: Order { t: 1, f: 0, n: 2 }, key: 0 },
    length: 1,
    stamp: 9,
};

/// What an old keeper cuts of the page's letters for two new ones.
fn cut_again(keeper: u32, random: u16) -> Vec<u8> {
    let (mut old, mut tray) = (page_tray(200, 100), vec![99; MOVE.new.order.tray()]);
    let cut = MOVE.cut(keeper, slot(&mut old, keeper), &[random], &mut tray);
    assert_eq!(cut, CutAgain { number: 0, place: 0 });
    tray
}

/// Keepers 1 and 2 hold 43 and 143.
#[test]
fn the_words_of_sub_letters() {
    assert_eq!(share_words(&mut cut_again(1, 10), 1..=2), [53, 63]);
    assert_eq!(share_words(&mut cut_again(2, 21), 1..=2), [164, 185]);
    let mut tray = cut_again(2, 21);
    for new in 1..=2 {
        let slot = slot(&mut tray, new);
        let header: Vec<u32> = (0..16).map(|i| word(slot, 0, i)).collect();
        assert_eq!(header, [82, 1, 1, 0, 2, new, 0, 0, 0, 9, 0, 1, 0, 0, 2, 0]);
        assert!(slot[512..].iter().all(|&byte| byte == 0));
        assert_eq!(SubLetter::read(slot).map(|sub| sub.from), Ok(Some(2)));
    }
}

/// Two times 10 and 256 times 21 are 256, so the new tray is the cut of 200 with that random word.
#[test]
fn the_weighing_of_sub_letters() {
    let (mut one, mut other) = (cut_again(1, 10), cut_again(2, 21));
    let mut moved = vec![99; MOVE.new.order.tray()];
    for new in 1..=2 {
        let letters = [&*slot(&mut other, new), &*slot(&mut one, new)].concat();
        let weighed = MOVE.weigh(&[1, 2], new, &letters, slot(&mut moved, new));
        assert_eq!(weighed, Weighed { number: 0, letter: 0, place: 0 });
    }
    assert_eq!(share_words(&mut moved, 1..=2), [199, 198]);
    let mut expected = vec![0; MOVE.new.order.tray()];
    assert_eq!(cut(MOVE.new, 9, &[200], &[256], &mut expected), 0);
    assert!(moved == expected);
}
