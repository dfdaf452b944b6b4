//! Random words are drawn 16 bits at a time. That each word is as likely as any other is no matter of
//! chance: all draws there are can be counted.

use second::peer::Peer;

/// As many words as there are, and one more for a draw that gives none.
const WORDS: usize = 257;

#[test]
fn each_word_has_as_many_draws_as_any_other() {
    let mut peer = Peer::start();
    let mut draws_of = [0; WORDS + 1];
    for draw in 0..=u16::MAX {
        draws_of[peer.drawn(draw) as usize] += 1;
    }
    let (again, words) = draws_of.split_last().expect("there are some");
    assert!(words.iter().all(|&draws| draws == 255), "{words:?}");
    assert_eq!(*again, 1, "one draw of all is drawn again");
    println!("{} draws: 255 for each of {WORDS} words, {again} drawn again", 1 + usize::from(u16::MAX));
}
