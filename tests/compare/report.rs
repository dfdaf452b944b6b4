//! The program `report`, run on whole inputs, beside the second program's report.

use std::fs::File;
use std::io::Write;
use std::os::fd::OwnedFd;
use std::os::unix::net::UnixStream;
use std::process::{Command, Output, Stdio};
use std::thread;

use second::cases::{self, Tray, KEYS};
use second::damage::{exchange_slot, lie, slot};
use second::groups::Groups;
use second::order::{Order, SLOT};
use second::peer::program;
use second::pick::Picked;
use second::random::Random;
use second::report::report;
use second::tally::Tally;
use second::told::Told;

const UNREAD: &str = "report: standard input cannot be read\n";
const UNWRITTEN: &str = "report: standard output cannot be written\n";

fn report_program() -> Command {
    program("programs/report")
}

/// The program, started by a shell as this line of it says.
fn by_shell(line: &str) -> Command {
    let report = report_program();
    let mut shell = Command::new("/bin/sh");
    shell.args(["-c", line, "sh"]).arg(report.get_program()).args(report.get_args());
    shell
}

/// How a run ended: what it wrote, what it said of trouble, and its status, none where a signal ended it.
#[derive(Debug, PartialEq)]
struct Ended {
    text: String,
    trouble: String,
    status: Option<i32>,
}

impl Ended {
    fn of(output: Output) -> Ended {
        let [text, trouble] = [output.stdout, output.stderr]
            .map(|bytes| String::from_utf8(bytes).expect("what it writes is text"));
        Ended { text, trouble, status: output.status.code() }
    }

    fn told(text: &str, trouble: &str, status: i32) -> Ended {
        Ended { text: text.into(), trouble: trouble.into(), status: Some(status) }
    }
}

/// How the program ends when its input comes in pieces of this size.
fn run_on(input: &[u8], piece: usize) -> Ended {
    let mut process = report_program()
        .stdin(Stdio::piped())
        .stdout(Stdio::piped())
        .stderr(Stdio::piped())
        .spawn()
        .expect("the gate builds the report and what runs it");
    let mut pipe = process.stdin.take().expect("it was asked for");
    thread::scope(|scope| {
        // the program may end before it has taken all of an input that is too long
        scope.spawn(move || input.chunks(piece).try_for_each(|bytes| pipe.write_all(bytes)));
        Ended::of(process.wait_with_output().expect("the program ends"))
    })
}

/// The program beside the second one.
#[derive(Default)]
struct Reports {
    tally: Tally,
}

impl Reports {
    fn same_in_pieces(&mut self, input: &[u8], piece: usize) {
        let text = String::from_utf8(report(input)).expect("the report is text");
        let number = text.trim_end().rsplit(' ').next().expect("a last word");
        let number: u32 = number.parse().expect("an answer");
        assert_eq!(run_on(input, piece), Ended::told(&text, "", number as i32));
        self.tally.add(number);
    }

    fn same(&mut self, input: &[u8]) {
        self.same_in_pieces(input, input.len().max(1));
    }

    fn same_tray(&mut self, told: Told, tray: &[u8]) {
        self.same(&input(told, tray));
    }

    /// An input of which all that its report says is known.
    fn right(&mut self, input: &[u8], text: &str) {
        assert_eq!(String::from_utf8(report(input)).as_deref(), Ok(text), "{} bytes", input.len());
        self.same(input);
    }

    /// A tray with these groups, of which it is known what its report begins and ends with.
    fn same_groups(&mut self, groups: &Groups, random: &Random) {
        let input = input(groups.told, &groups.tray(random));
        let Picked { number, stamp, length } = groups.picked();
        let text = String::from_utf8(report(&input)).expect("the report is text");
        let key = groups.told.key;
        let named = text.starts_with(&format!("key {key} stamp {stamp} length {length}\n"));
        assert_eq!(named, number != 6, "{groups:?}");
        assert!(text.ends_with(&format!("answer {number}\n")), "{groups:?}");
        self.same(&input);
    }
}

fn input(told: Told, tray: &[u8]) -> Vec<u8> {
    let Told { order: Order { t, f, n }, key } = told;
    let front = [t, f, n, key].map(|number| number as u8);
    [&front, tray].concat()
}

fn any_tray(order: Order, random: &Random) -> Tray {
    let (told, stamp) = (cases::told_of(order, random), cases::stamp(random));
    Tray::cut(told, stamp, 1 + random.below(30), random)
}

fn lie_everywhere(tray: &mut Tray, keeper: u32, more: u32) {
    (0..tray.secret.len()).for_each(|place| tray.add_to(keeper, place, more));
}

#[test]
fn every_order_with_liars_and_empty_slots() {
    let random = &Random::new(91);
    let mut reports = Reports::default();
    for order in Order::all() {
        let mut tray = any_tray(order, random);
        for keeper in 1..=order.n {
            match random.below(12) {
                0 => lie_everywhere(&mut tray, keeper, random.between(1, 256)),
                1 => slot(&mut tray.bytes, keeper).fill(0),
                _ => {}
            }
        }
        reports.same_tray(tray.told, &tray.bytes);
    }
    reports.tally.expect(162, &[0, 6, 7]);
}

#[test]
fn too_many_liars() {
    let random = &Random::new(92);
    let mut reports = Reports::default();
    let orders = Order::all().into_iter().filter(|order| order.n > order.fewest() + order.f + 1);
    for order in orders.step_by(3) {
        let mut tray = any_tray(order, random);
        for keeper in 1..=order.f + 1 {
            lie_everywhere(&mut tray, keeper, keeper);
        }
        slot(&mut tray.bytes, order.n)[7] ^= 1;
        reports.same_tray(tray.told, &tray.bytes);
    }
    reports.tally.expect(40, &[7]);
}

#[test]
fn constants_of_256() {
    let random = &Random::new(93);
    let mut reports = Reports::default();
    for order in Order::all().into_iter().step_by(4) {
        let (told, stamp) = (cases::told_of(order, random), cases::stamp(random));
        let mut tray = Tray::cut(told, stamp, 1, random);
        tray.move_to_256(0);
        for keeper in 1..=random.between(0, order.f) {
            lie_everywhere(&mut tray, keeper, 1);
        }
        reports.same_tray(told, &tray.bytes);
    }
    reports.tally.expect(40, &[8]);
}

/// A newer cut and an older one share the tray; those outside the group named are absent.
#[test]
fn two_cuts_in_one_tray() {
    let random = &Random::new(94);
    let mut reports = Reports::default();
    for order in Order::all().into_iter().step_by(2) {
        let told = cases::told_of(order, random);
        let mut tray = Tray::cut(told, 40, 1 + random.below(300), random);
        let other = Tray::cut(told, random.between(39, 41), 1 + random.below(300), random);
        for keeper in 1..=order.n {
            if random.once_in(2) {
                exchange_slot(&mut tray.bytes, &other.bytes, keeper);
            }
        }
        reports.same_tray(told, &tray.bytes);
    }
    reports.tally.expect(81, &[0, 6]);
}

/// The report on a cut of which these keepers' letters are there, and all of them are as they were cut.
fn sound(tray: &Tray, present: &[u32]) -> String {
    let Told { order, key } = tray.told;
    let m = present.len() as u32;
    if m < order.fewest() {
        return "answer 6\n".into();
    }
    let state = |keeper: u32| if present.contains(&keeper) { "agrees" } else { "absent" };
    let line = |keeper| format!("keeper {keeper} {}\n", state(keeper));
    let lines: String = (1..=order.n).map(line).collect();
    let need = order.fewest().max(m.saturating_sub(order.f));
    let named = format!("key {key} stamp {} length {}", tray.stamp, tray.length());
    format!("{named}\n{lines}usable {m} need {need} agree {m}\nanswer 0\n")
}

#[test]
fn keys_of_one_to_three_digits() {
    let random = &Random::new(108);
    let mut reports = Reports::default();
    for key in [0, 1, 7, 9, 10, 99, 100, 199, 200, 254, 255] {
        let order = cases::order(random);
        let tray = Tray::cut(Told::new(order, key), cases::stamp(random), 3, random);
        let keepers: Vec<u32> = (1..=order.n).collect();
        reports.right(&input(tray.told, &tray.bytes), &sound(&tray, &keepers));
    }
    reports.tally.expect(11, &[0]);
}

/// Letters of two keys in one tray, once in two under one stamp and length. To each key the others are
/// absent, and to a third one all are.
#[test]
fn two_keys_in_one_tray() {
    let random = &Random::new(109);
    let mut reports = Reports::default();
    for order in Order::all().into_iter().step_by(3) {
        let mut tray = any_tray(order, random);
        let told = Told { key: cases::other_key(tray.told.key, random), ..tray.told };
        let stamp = if random.once_in(2) { tray.stamp } else { cases::stamp(random) };
        let other = Tray::cut(told, stamp, tray.secret.len(), random);
        let (mut own, mut others) = (Vec::new(), Vec::new());
        for keeper in 1..=order.n {
            if random.once_in(2) {
                exchange_slot(&mut tray.bytes, &other.bytes, keeper);
                others.push(keeper);
            } else {
                own.push(keeper);
            }
        }
        reports.right(&input(tray.told, &tray.bytes), &sound(&tray, &own));
        reports.right(&input(told, &tray.bytes), &sound(&other, &others));
        let third = (0..=255).find(|&key| ![tray.told.key, told.key].contains(&key));
        let third = Told { key: third.expect("there are 256"), ..told };
        reports.right(&input(third, &tray.bytes), "answer 6\n");
    }
    reports.tally.expect(162, &[0, 6]);
}

/// Two groups for each pair of numbers that their joins can give. The report is of the first that joins;
/// where none does it is of the greatest that is large enough.
#[test]
fn two_groups_of_every_number() {
    let random = &Random::new(99);
    let mut reports = Reports::default();
    let orders = Order::all().into_iter().filter(|order| 2 * order.fewest() + 2 <= order.n);
    for order in orders.step_by(9) {
        for greater in [0, 6, 7, 8] {
            for less in [0, 6, 7, 8] {
                let told = cases::told_of(order, random);
                let groups = Groups::large(told, &[greater, less], random);
                reports.same_groups(&groups, random);
                reports.same_groups(&groups.of_one_stamp(random), random);
            }
        }
    }
    reports.tally.expect(250, &[0, 6, 7, 8]);
}

/// The most that there can be, of which each is in its turn the first that joins, and then none is.
#[test]
fn eight_groups() {
    let random = &Random::new(100);
    let mut reports = Reports::default();
    for first in 0..=8 {
        let told = cases::told_of(Order::new(1, 0, 16), random);
        reports.same_groups(&Groups::first_joins(told, 8, first, random), random);
    }
    reports.tally.expect(9, &[0, 8]);
}

#[test]
fn the_longest_secrets_and_the_greatest_numbers() {
    let random = &Random::new(95);
    let mut reports = Reports::default();
    for (t, f) in [(3, 3), (7, 2), (1, 0)] {
        for (stamp, length) in [(u32::MAX, 952), (1_000_000_000, 100), (999_999_999, 99), (10, 10)]
        {
            let told = cases::told_of(Order::new(t, f, 16), random);
            let mut tray = Tray::cut(told, stamp, length, random);
            (1..=f).for_each(|keeper| lie_everywhere(&mut tray, keeper, 5));
            reports.same_tray(told, &tray.bytes);
        }
    }
    reports.tally.expect(12, &[0]);
}

#[test]
fn inputs_of_a_wrong_length() {
    let random = &Random::new(96);
    let mut reports = Reports::default();
    for order in [Order::new(1, 1, 6), Order::new(1, 0, 2), Order::new(3, 3, 16)] {
        let tray = any_tray(order, random);
        let whole = input(tray.told, &tray.bytes);
        let size = whole.len();
        for size in [0, 1, 2, 3, 4, 5, 1000, 4 + SLOT, size - SLOT, size - 2, size - 1] {
            reports.right(&whole[..size], "answer 4\n");
        }
        for more in [1, 2, SLOT, 100_000] {
            reports.right(&[whole.as_slice(), &vec![0; more]].concat(), "answer 4\n");
        }
    }
    reports.tally.expect(45, &[4]);
}

/// Three bytes are an order, and are judged whether or not a key follows them.
#[test]
fn inputs_of_few_bytes() {
    let random = &Random::new(107);
    let mut reports = Reports::default();
    for [t, f, n] in [[1, 1, 6], [1, 0, 2], [3, 3, 16], [7, 2, 16]] {
        let few = t + 4 * f;
        for bytes in [[t, f, n], [0, f, n], [8, f, n], [t, t + 1, n], [t, f, few], [t, f, 17]] {
            let whole = [&bytes[..], &[*random.choose(&KEYS) as u8]].concat();
            for size in 0..=4 {
                let lawful = bytes == [t, f, n];
                let number = if size < 3 || lawful { 4 } else { 1 };
                reports.right(&whole[..size], &format!("answer {number}\n"));
            }
        }
    }
    reports.tally.expect(120, &[1, 4]);
}

/// An unlawful order is 1, whatever else is wrong with the input.
#[test]
fn unlawful_orders() {
    let random = &Random::new(97);
    let mut reports = Reports::default();
    for _ in 0..40 {
        let [t, f, n] = [random.between(0, 9), random.between(0, 4), random.between(0, 20)];
        let told = cases::told_of(Order::new(t, f, n), random);
        let right = random.bytes(told.order.tray());
        reports.same_tray(told, &right);
        reports.same_tray(told, &right[..right.len() / 2]);
    }
    for bytes in [[255; 3], [0; 3], [1, 0, 255], [255, 0, 16], [1, 255, 16]] {
        reports.right(&bytes, "answer 1\n");
    }
    reports.tally.expect(85, &[1, 4, 6]);
}

#[test]
fn an_input_that_comes_in_pieces() {
    let random = &Random::new(98);
    let mut reports = Reports::default();
    for piece in [1, 2, 3, 4, 7, 100, 511, 2048, 2051, 4096, 5000] {
        let tray = any_tray(Order::new(1, 1, 7), random);
        reports.same_in_pieces(&input(tray.told, &tray.bytes), piece);
    }
    reports.tally.expect(11, &[0]);
}

/// Nothing to read, in each way that a shell can arrange it.
#[test]
fn no_input_at_all() {
    assert_eq!(report(&[]), b"answer 4\n");
    let empty = File::open("/dev/null").expect("the empty file");
    let output = report_program().stdin(empty).output().expect("the program ends");
    assert_eq!(Ended::of(output), Ended::told("answer 4\n", "", 4));

    let output = by_shell("exec \"$@\" <&-").output().expect("the program ends");
    assert_eq!(Ended::of(output), Ended::told("answer 4\n", UNREAD, 4));
}

/// A file that cannot be read, which is not the same as one that ends.
#[test]
fn an_input_that_cannot_be_read() {
    let directory = File::open(env!("CARGO_MANIFEST_DIR")).expect("a directory");
    let output = report_program().stdin(directory).output().expect("the program ends");
    assert_eq!(Ended::of(output), Ended::told("answer 4\n", UNREAD, 4));
}

/// All of an input that is answered with 0, and then a read that fails: whether more was to come cannot
/// be told, so it must not be taken for the whole.
#[test]
fn a_read_that_fails_after_a_whole_tray() {
    for fails in [false, true] {
        let (mut sender, mut receiver) = UnixStream::pair().expect("two ends of a socket");
        sender.write_all(&example()).expect("there is room for it");
        if fails {
            // a sender that goes away with something unread resets the connection, and what it has
            // sent can still be read first
            receiver.write_all(b"?").expect("there is room for it");
        }
        drop(sender);
        let output = report_program().stdin(OwnedFd::from(receiver)).output();
        let ended = Ended::of(output.expect("the program ends"));
        if fails {
            assert_eq!(ended, Ended::told("answer 4\n", UNREAD, 4));
        } else {
            let text = String::from_utf8(report(&example())).expect("the report is text");
            assert_eq!(ended, Ended::told(&text, "", 0));
        }
    }
}

/// How a command ends on an input whose report is right, where nobody reads what it writes: the pipe's
/// other end is closed before it has all of its input.
fn into_closed_pipe(mut command: Command) -> Option<i32> {
    command.stdin(Stdio::piped()).stdout(Stdio::piped()).stderr(Stdio::null());
    let mut process = command.spawn().expect("the gate builds the report and what runs it");
    drop(process.stdout.take());
    let mut pipe = process.stdin.take().expect("it was asked for");
    pipe.write_all(&example()).expect("the program reads all of its input");
    drop(pipe);
    process.wait().expect("the program ends").code()
}

/// `report && sign` must not sign where nobody has seen the report.
#[test]
fn a_report_that_cannot_be_written() {
    let path = format!("{}/example.input", env!("CARGO_TARGET_TMPDIR"));
    std::fs::write(&path, example()).expect("the tests may write here");
    let input = || File::open(&path).expect("it was written");

    let closed = by_shell("exec \"$@\" >&-").stdin(input()).output();
    assert_eq!(Ended::of(closed.expect("the program ends")), Ended::told("", UNWRITTEN, 100));

    let full = by_shell("exec \"$@\" >/dev/full").stdin(input()).output();
    assert_eq!(Ended::of(full.expect("the program ends")), Ended::told("", UNWRITTEN, 100));

    assert_ne!(into_closed_pipe(report_program()), Some(0));
    let signal_ignored = by_shell("trap '' PIPE; exec \"$@\"");
    assert_eq!(into_closed_pipe(signal_ignored), Some(100));
}

/// It takes no words, and does not wait for its input to say so. 0 would say that there is a report
/// with answer 0.
#[test]
fn words() {
    for word in ["--help", "-h", "tray", ""] {
        let mut report = report_program();
        report.arg(word).stdin(Stdio::piped()).stdout(Stdio::piped()).stderr(Stdio::piped());
        let mut process = report.spawn().expect("the gate builds the report and what runs it");
        let open = process.stdin.take();
        let ended = Ended::of(process.wait_with_output().expect("the program ends"));
        drop(open);
        assert!(ended.trouble.starts_with("usage: report <INPUT"), "{ended:?}");
        assert_eq!((ended.text.as_str(), ended.status), ("", Some(100)));
    }
}

/// The input of the page's example.
fn example() -> Vec<u8> {
    let told = Told::new(Order::new(1, 1, 6), 0);
    let mut tray = vec![0; told.order.tray()];
    assert_eq!(second::cut::cut(told, 7, &[200], &[100], &mut tray), 0);
    lie(slot(&mut tray, 3), 0, 0);
    slot(&mut tray, 6).fill(0);
    input(told, &tray)
}

#[test]
fn the_example_of_the_page() {
    let mut reports = Reports::default();
    reports.same(&example());
    reports.tally.expect(1, &[0]);
}
