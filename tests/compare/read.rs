//! `cs_read` beside the second program's reader.

use second::cases::{self, LENGTHS, STAMPS};
use second::damage::{forge_word, seal, set_word};
use second::letter::{Fault, Head, Letter};
use second::order::{Order, SLOT};
use second::peer::Peer;
use second::random::Random;
use second::tally::Tally;
use second::told::Told;

/// Lengths of one, two, three and four blocks, the last block full, nearly empty and in between.
const ONE_TO_FOUR_BLOCKS: [usize; 5] = [1, 300, 476, 700, 952];

/// The two readers side by side.
struct Readers {
    peer: Peer,
    tally: Tally,
}

impl Readers {
    fn start() -> Readers {
        Readers { peer: Peer::start(), tally: Tally::default() }
    }

    fn same(&mut self, slot: &[u8]) {
        let expected = numbers(slot);
        assert_eq!(self.peer.read(slot), expected);
        self.tally.add(expected[0]);
    }
}

/// The nine numbers of the call.
fn numbers(slot: &[u8]) -> [u32; 9] {
    match Letter::read(slot) {
        Ok(Letter { head: Head { told, keeper, stamp, length }, .. }) => {
            let Told { order: Order { t, f, n }, key } = told;
            [0, 0, t, f, n, key, keeper, stamp, length]
        }
        Err(Fault { number, place }) => [number, place, 0, 0, 0, 0, 0, 0, 0],
    }
}

fn slot_of(length: usize, random: &Random) -> (Head, Vec<u8>) {
    let head = Head { length: length as u32, ..cases::head(random) };
    (head, cases::letter_of(head, random).slot())
}

#[test]
fn good_letters_of_every_length() {
    let (random, mut readers) = (&Random::new(1), Readers::start());
    for length in 1..=952 {
        for _ in 0..2 {
            readers.same(&slot_of(length, random).1);
        }
    }
    readers.tally.expect(1904, &[0]);
}

#[test]
fn good_letters_of_every_order_and_keeper() {
    let (random, mut readers) = (&Random::new(2), Readers::start());
    for order in Order::all() {
        for keeper in 1..=order.n {
            let head = Head { told: cases::told_of(order, random), keeper, ..cases::head(random) };
            readers.same(&cases::letter_of(head, random).slot());
        }
    }
    readers.tally.expect(1800, &[0]);
}

#[test]
fn good_letters_of_every_key() {
    let (random, mut readers) = (&Random::new(20), Readers::start());
    for key in 0..=255 {
        for length in ONE_TO_FOUR_BLOCKS {
            let head = cases::head(random);
            let told = Told { key, ..head.told };
            let head = Head { told, length: length as u32, ..head };
            readers.same(&cases::letter_of(head, random).slot());
        }
    }
    readers.tally.expect(1280, &[0]);
}

#[test]
fn good_letters_with_stamps_at_both_ends() {
    let (random, mut readers) = (&Random::new(3), Readers::start());
    for stamp in STAMPS {
        for length in LENGTHS {
            let head = Head { stamp, length: length as u32, ..cases::head(random) };
            readers.same(&cases::letter_of(head, random).slot());
        }
    }
    readers.tally.expect(80, &[0]);
}

#[test]
fn share_words_all_0_and_all_256() {
    let (random, mut readers) = (&Random::new(4), Readers::start());
    for length in LENGTHS {
        for word in [0, 1, 255, 256] {
            let head = Head { length: length as u32, ..cases::head(random) };
            readers.same(&Letter { head, shares: vec![word; length] }.slot());
        }
    }
    readers.tally.expect(40, &[0]);
}

#[test]
fn one_word_damaged_in_every_place() {
    let (random, mut readers) = (&Random::new(5), Readers::start());
    for length in ONE_TO_FOUR_BLOCKS {
        let (head, good) = slot_of(length, random);
        for place in 0..head.blocks() {
            for word in 0..256 {
                let mut slot = good.clone();
                let old = second::damage::word(&good, place, word);
                set_word(&mut slot, place, word, (old + random.between(1, 256)) % 257);
                readers.same(&slot);
            }
        }
    }
    readers.tally.expect(3000, &[10]);
}

#[test]
fn one_byte_damaged_in_every_place() {
    let (random, mut readers) = (&Random::new(6), Readers::start());
    for length in [1, 700] {
        let (_, good) = slot_of(length, random);
        for at in 0..SLOT {
            let mut slot = good.clone();
            slot[at] ^= 1 << random.below(8);
            readers.same(&slot);
        }
    }
    readers.tally.expect(4096, &[9, 10, 13]);
}

#[test]
fn one_word_forged_in_every_place() {
    let (random, mut readers) = (&Random::new(7), Readers::start());
    for length in ONE_TO_FOUR_BLOCKS {
        let (head, good) = slot_of(length, random);
        for place in 0..head.blocks() {
            for word in 0..254 {
                let mut slot = good.clone();
                forge_word(&mut slot, place, word, random.between(0, 256));
                readers.same(&slot);
            }
        }
    }
    readers.tally.expect(3000, &[0, 11, 12, 13]);
}

#[test]
fn words_256_and_257_in_every_place() {
    let (random, mut readers) = (&Random::new(8), Readers::start());
    let (_, good) = slot_of(900, random);
    for place in 0..4 {
        for word in 0..256 {
            for value in [256, 257] {
                let mut slot = good.clone();
                set_word(&mut slot, place, word, value);
                readers.same(&slot);
                seal(&mut slot, place);
                readers.same(&slot);
            }
        }
    }
    readers.tally.expect(4096, &[0, 9, 10, 11, 12, 13]);
}

#[test]
fn words_far_above_256() {
    let (random, mut readers) = (&Random::new(9), Readers::start());
    let (_, good) = slot_of(900, random);
    for round in 0..1000 {
        let mut slot = good.clone();
        let (place, word) = (round % 4, random.below(256));
        set_word(&mut slot, place, word, *random.choose(&[258, 511, 512, 513, 32768, 65535]));
        if random.once_in(2) {
            seal(&mut slot, place);
        }
        readers.same(&slot);
    }
    // a block of nothing but the largest word: the sums must not run over
    readers.same(&[255; SLOT]);
    readers.tally.expect(1001, &[0, 9]);
}

#[test]
fn header_words_at_their_edges() {
    let (random, mut readers) = (&Random::new(10), Readers::start());
    let values: Vec<u32> =
        (0..=17).chain([80, 81, 82, 127, 128, 183, 184, 185, 238, 255, 256]).collect();
    for length in [900, 952] {
        let (_, good) = slot_of(length, random);
        for place in 0..4 {
            for word in 0..16 {
                for &value in &values {
                    let mut slot = good.clone();
                    forge_word(&mut slot, place, word, value);
                    readers.same(&slot);
                }
            }
        }
    }
    readers.tally.expect(3700, &[0, 11, 12, 13]);
}

/// All blocks tell the same, so that only the law of the order decides.
#[test]
fn every_small_order_told() {
    let (random, mut readers) = (&Random::new(11), Readers::start());
    let (_, good) = slot_of(239, random);
    for t in 0..=8 {
        for f in 0..=8 {
            for n in 0..=17 {
                let mut slot = good.clone();
                for place in 0..2 {
                    for (word, value) in [(2, t), (3, f), (4, n), (5, random.between(0, n + 1))] {
                        set_word(&mut slot, place, word, value);
                    }
                    seal(&mut slot, place);
                }
                readers.same(&slot);
            }
        }
    }
    readers.tally.expect(1458, &[0, 12]);
}

#[test]
fn every_length_told() {
    let (random, mut readers) = (&Random::new(12), Readers::start());
    for length in 0..=1200 {
        let (_, mut slot) = slot_of(*random.choose(&LENGTHS), random);
        for place in 0..4 {
            for (word, value) in [(10, length / 256), (11, length % 256)] {
                set_word(&mut slot, place, word, value);
            }
            if random.below(8) > 0 {
                seal(&mut slot, place);
            }
        }
        readers.same(&slot);
    }
    readers.tally.expect(1201, &[0, 10, 11, 12, 13]);
}

#[test]
fn share_words_past_the_end() {
    let (random, mut readers) = (&Random::new(13), Readers::start());
    for length in [1, 100, 237, 239, 400, 477, 600, 713, 715, 951] {
        let (head, good) = slot_of(length, random);
        for share in length..head.blocks() * 238 {
            let mut slot = good.clone();
            second::damage::lie(&mut slot, share, random.between(1, 256));
            readers.same(&slot);
        }
    }
    readers.tally.expect(1250, &[13]);
}

#[test]
fn bytes_past_the_end() {
    let (random, mut readers) = (&Random::new(14), Readers::start());
    for length in [1, 238, 239, 476, 477, 714] {
        let (head, good) = slot_of(length, random);
        let end = head.blocks() * 512;
        for at in (end..SLOT).step_by(5).chain([SLOT - 1]) {
            let mut slot = good.clone();
            slot[at] = random.between(1, 255) as u8;
            readers.same(&slot);
        }
    }
    readers.tally.expect(1200, &[13]);
}

#[test]
fn several_faults_at_once() {
    let (random, mut readers) = (&Random::new(15), Readers::start());
    for _ in 0..4000 {
        let (head, mut slot) = slot_of(*random.choose(&ONE_TO_FOUR_BLOCKS), random);
        for _ in 0..1 + random.below(3) {
            let place = random.below(head.blocks());
            let word = if random.once_in(2) { random.below(16) } else { random.below(256) };
            set_word(&mut slot, place, word, random.between(0, 270));
            if random.below(3) > 0 {
                seal(&mut slot, place);
            }
        }
        if random.once_in(3) {
            slot[random.below(SLOT)] ^= 1;
        }
        readers.same(&slot);
    }
    readers.tally.expect(4000, &[0, 9, 10, 11, 12, 13]);
}

/// Blocks of a letter that differs in one thing, or in its share words alone, put into another.
#[test]
fn blocks_of_two_letters_mixed() {
    let (random, mut readers) = (&Random::new(16), Readers::start());
    for round in 0..2000 {
        let length = 239 + random.below(714) as u32;
        let key = cases::key(random);
        let of = |t, f, n| Told::new(Order::new(t, f, n), key);
        let head = Head { length, told: of(1, 0, 9), ..cases::head(random) };
        let head = Head { keeper: random.between(1, 9), ..head };
        let other = match round % 9 {
            0 => Head { told: of(2, 0, 9), ..head },
            1 => Head { told: of(1, 1, 9), ..head },
            2 => Head { told: of(1, 0, 10), ..head },
            3 => Head { keeper: head.keeper % 9 + 1, ..head },
            4 => Head { stamp: head.stamp ^ 1 << random.below(32), ..head },
            5 => Head { length: 952 - (length - 239), ..head },
            6 => Head { told: Told { key: cases::other_key(key, random), ..head.told }, ..head },
            _ => head,
        };
        let other = Head { stamp: other.stamp.max(1), ..other };
        let mut slot = cases::letter_of(head, random).slot();
        let from = cases::letter_of(other, random).slot();
        let (to, place) = (random.below(4) * 512, random.below(4) * 512);
        slot[to..to + 512].copy_from_slice(&from[place..place + 512]);
        readers.same(&slot);
    }
    readers.tally.expect(2000, &[0, 11, 12, 13]);
}

#[test]
fn slots_of_a_wrong_length() {
    let (random, mut readers) = (&Random::new(17), Readers::start());
    let lengths = (0..40).chain(500..530).chain(2030..2070).chain([1024, 1536, 4095, 4096, 65536]);
    for length in lengths.filter(|&length| length != SLOT) {
        let mut good = slot_of(cases::length(random), random).1;
        good.resize(length, 0);
        readers.same(&good);
        readers.same(&random.bytes(length));
        readers.same(&vec![0; length]);
    }
    readers.tally.expect(340, &[4]);
}

#[test]
fn zeros_and_random_bytes() {
    let (random, mut readers) = (&Random::new(18), Readers::start());
    readers.same(&[0; SLOT]);
    for _ in 0..500 {
        readers.same(&random.bytes(SLOT));
    }
    readers.tally.expect(501, &[9, 11]);
}

/// Small words everywhere, with good checks, the mark and the edition: deep into the header.
#[test]
fn random_words_with_good_checks() {
    let (random, mut readers) = (&Random::new(19), Readers::start());
    for _ in 0..2000 {
        let (mut slot, key) = (vec![0; SLOT], cases::key(random));
        for place in 0..4 {
            for word in 0..256 {
                set_word(&mut slot, place, word, random.between(0, 256));
            }
            let front = [81, 1, random.between(1, 7), random.between(0, 1), random.between(6, 16)];
            let back = [random.between(0, 3), random.between(0, 255)];
            for (word, &value) in
                (0..).zip(&front).chain((10..).zip(&back)).chain((12..).zip(&[0, key, 0, 0]))
            {
                set_word(&mut slot, place, word, value);
            }
            set_word(&mut slot, place, 5, random.between(1, 8));
            set_word(&mut slot, place, 12, (place + random.below(8) / 7) as u32);
            seal(&mut slot, place);
        }
        readers.same(&slot);
    }
    readers.tally.expect(2000, &[12, 13]);
}
