//! The program `csalgodes`, run on words as a shell runs it, and how it ended.

use std::ffi::{OsStr, OsString};
use std::fmt;
use std::io::{Read, Write};
use std::path::{Path, PathBuf};
use std::process::{Child, ChildStdin, Command, ExitStatus, Stdio};
use std::sync::atomic::{AtomicUsize, Ordering};
use std::thread::{self, JoinHandle};
use std::time::{Duration, Instant};

use crate::order::Order;
use crate::peer::program;
use crate::told::Told;

/// The status of trouble with a file, and the one of wrong words.
pub const TROUBLE: i32 = 100;
pub const WRONG_WORDS: i32 = 101;

/// A run that takes longer hangs.
const LIMIT: Duration = Duration::from_secs(20);

/// So many runs are made at a time, where they do not depend on each other.
const HANDS: usize = 4;

/// The words by which a command is told what its letters are of.
pub fn told(told: Told) -> String {
    let Told { order: Order { t, f, n }, key } = told;
    format!("--order {t},{f},{n} --key {key}")
}

/// What there is to be read from standard input.
enum Input {
    Nothing,
    Bytes(Vec<u8>),
    /// Nothing, and no end of it: who reads it waits.
    Open,
}

/// A run to be made.
pub struct Run {
    folder: PathBuf,
    front: Vec<OsString>,
    words: Vec<OsString>,
    input: Input,
}

impl Run {
    pub fn new(folder: &Path, words: Vec<OsString>) -> Run {
        Run { folder: folder.into(), front: Vec::new(), words, input: Input::Nothing }
    }

    /// Of words that have no space in them.
    pub fn line(folder: &Path, line: &str) -> Run {
        Run::new(folder, line.split_whitespace().map(OsString::from).collect())
    }

    /// One word more, whatever it holds.
    pub fn and(mut self, word: impl AsRef<OsStr>) -> Run {
        self.words.push(word.as_ref().into());
        self
    }

    /// With this to be read from standard input.
    pub fn given(mut self, input: &[u8]) -> Run {
        self.input = Input::Bytes(input.into());
        self
    }

    /// With a standard input that whoever reads it waits for.
    pub fn with_open_input(mut self) -> Run {
        self.input = Input::Open;
        self
    }

    /// Started by a command of these words, which starts what follows them.
    pub fn by(mut self, front: &[&str]) -> Run {
        self.front = front.iter().map(OsString::from).collect();
        self
    }

    /// Started by a shell as this line of it says, where the run is "$@".
    pub fn by_shell(self, line: &str) -> Run {
        self.by(&["/bin/sh", "-c", line, "sh"])
    }

    fn command(&self) -> Command {
        let program = program("programs/csalgodes");
        let mut words: Vec<&OsStr> = self.front.iter().map(OsString::as_os_str).collect();
        words.push(program.get_program());
        words.extend(program.get_args());
        words.extend(self.words.iter().map(OsString::as_os_str));
        let mut command = Command::new(words[0]);
        command.args(&words[1..]).current_dir(&self.folder);
        command
    }

    pub fn start(self) -> Running {
        let stdin = match self.input {
            Input::Nothing => Stdio::null(),
            _ => Stdio::piped(),
        };
        let mut command = self.command();
        command.stdin(stdin).stdout(Stdio::piped()).stderr(Stdio::piped());
        let mut process = command.spawn().expect("the gate builds the program and what runs it");
        let open = match (self.input, process.stdin.take()) {
            (Input::Bytes(input), Some(mut pipe)) => {
                // the program may end before it has taken all of an input that is too long
                thread::spawn(move || pipe.write_all(&input));
                None
            }
            (_, pipe) => pipe,
        };
        let text = collect(process.stdout.take().expect("it was asked for"));
        let trouble = collect(process.stderr.take().expect("it was asked for"));
        Running { process, _open: open, text, trouble, words: self.words, began: Instant::now() }
    }

    #[track_caller]
    pub fn end(self) -> Ended {
        self.start().end()
    }
}

/// Reads all that comes, however much it is, while the run goes on.
fn collect(mut from: impl Read + Send + 'static) -> JoinHandle<Vec<u8>> {
    thread::spawn(move || {
        let mut bytes = Vec::new();
        from.read_to_end(&mut bytes).expect("a pipe can be read");
        bytes
    })
}

/// A run that was begun.
pub struct Running {
    process: Child,
    /// Closed when the run has ended.
    _open: Option<ChildStdin>,
    text: JoinHandle<Vec<u8>>,
    trouble: JoinHandle<Vec<u8>>,
    words: Vec<OsString>,
    began: Instant,
}

impl Running {
    pub fn began(&self) -> Instant {
        self.began
    }

    pub fn has_ended(&mut self) -> bool {
        self.process.try_wait().expect("it is ours").is_some()
    }

    /// Ends it at once: it gets to do nothing more.
    pub fn kill(mut self) -> ExitStatus {
        let _ = self.process.kill();
        self.process.wait().expect("it is ours")
    }

    /// Waits for its end, which must be its own and come in time.
    #[track_caller]
    pub fn end(mut self) -> Ended {
        while !self.has_ended() {
            if self.began.elapsed() > LIMIT {
                let _ = self.process.kill();
                panic!("{:?} hangs", self.words);
            }
            thread::sleep(Duration::from_millis(1));
        }
        let status = self.process.wait().expect("it is ours");
        let Some(number) = status.code() else {
            panic!("{:?} was ended by {status}", self.words);
        };
        let [text, trouble] = [self.text, self.trouble].map(|bytes| bytes.join().expect("read"));
        let ended = Ended { words: self.words, text, trouble, status: number };
        ended.is_clean();
        ended
    }
}

/// How a run ended: what it wrote, what it said of trouble, and its status.
pub struct Ended {
    words: Vec<OsString>,
    pub text: Vec<u8>,
    pub trouble: Vec<u8>,
    pub status: i32,
}

impl fmt::Debug for Ended {
    fn fmt(&self, to: &mut fmt::Formatter) -> fmt::Result {
        let [text, trouble] = [&self.text, &self.trouble].map(|bytes| lossy(bytes));
        write!(to, "{:?} ended with {}, {text:?}, {trouble:?}", self.words, self.status)
    }
}

fn lossy(bytes: &[u8]) -> String {
    let mut text = String::from_utf8_lossy(bytes).into_owned();
    if let Some((at, _)) = text.char_indices().nth(2000) {
        text.truncate(at);
        text += "..";
    }
    text
}

impl Ended {
    /// What it said of trouble, as text; what is no text in it is marked.
    pub fn said(&self) -> String {
        String::from_utf8_lossy(&self.trouble).into_owned()
    }

    pub fn wrote(&self) -> String {
        String::from_utf8(self.text.clone()).expect("what it writes is text")
    }

    /// No control byte but the end of a line reaches whoever reads what it says.
    #[track_caller]
    fn is_clean(&self) {
        let control = |&byte: &u8| byte != b'\n' && (byte < b' ' || byte == 127);
        assert!(!self.trouble.iter().any(control), "{self:?}");
        assert!(self.trouble.is_empty() || self.trouble.ends_with(b"\n"), "{self:?}");
    }

    #[track_caller]
    fn has_status(&self, status: i32) {
        assert_eq!(self.status, status, "{self:?}");
    }

    /// It did what it was asked, and said nothing.
    #[track_caller]
    pub fn is_silent(&self) {
        self.has_status(0);
        assert!(self.text.is_empty() && self.trouble.is_empty(), "{self:?}");
    }

    /// It did what it was asked, wrote this, and had no trouble.
    #[track_caller]
    pub fn writes(&self, text: &str) {
        self.has_status(0);
        assert_eq!((self.wrote().as_str(), self.said().as_str()), (text, ""), "{self:?}");
    }

    /// It ended with this number of the library's, and said so in one line.
    #[track_caller]
    pub fn answers(&self, number: u32) {
        self.explains(number, &format!("csalgodes: {number}: "));
    }

    /// The same, of a number that has the place of a block.
    #[track_caller]
    pub fn answers_in(&self, number: u32, block: u32) {
        self.explains(number, &format!("csalgodes: {number} in block {block}: "));
    }

    /// After this a line says what the number is, and after a colon what is to be done.
    #[track_caller]
    fn explains(&self, number: u32, front: &str) {
        self.has_status(number as i32);
        let said = self.said();
        let lines: Vec<&str> = said.lines().filter_map(|line| line.strip_prefix(front)).collect();
        assert_eq!(lines.len(), 1, "{self:?}");
        assert!(lines[0].contains(": ") && !lines[0].ends_with(": "), "{self:?}");
    }

    /// It had trouble with a file, and said so.
    #[track_caller]
    pub fn is_trouble(&self) {
        self.has_status(TROUBLE);
        let said = self.said();
        assert!(said.lines().any(|line| line.starts_with("csalgodes: ")), "{self:?}");
        assert!(said.lines().all(|line| line.starts_with("csalgodes")), "{self:?}");
    }

    /// It was told something wrong, wrote nothing, and named the word.
    #[track_caller]
    pub fn blames(&self, word: &str) {
        self.has_status(WRONG_WORDS);
        assert!(self.text.is_empty(), "{self:?}");
        assert!(self.said().contains(&format!("'{word}'")), "{word}: {self:?}");
    }

    /// It was told something wrong by the words of this command: one line says what, and one the way to help.
    #[track_caller]
    pub fn blames_words_of(&self, command: &str) {
        self.has_status(WRONG_WORDS);
        assert!(self.text.is_empty(), "{self:?}");
        let said = self.said();
        let lines: Vec<&str> = said.lines().collect();
        assert_eq!(lines.len(), 2, "{self:?}");
        assert!(lines[0].starts_with(&format!("csalgodes: {command}: ")), "{self:?}");
        assert!(lines[1].contains(&format!("csalgodes help {command}")), "{self:?}");
    }
}

/// Does a job for each of these, a few at a time.
pub fn each<One: Sync>(jobs: &[One], job: impl Fn(&One) + Sync) {
    share(HANDS, jobs, job);
}

/// Does a job for each of these, all at a time: for jobs that wait.
pub fn each_at_once<One: Sync>(jobs: &[One], job: impl Fn(&One) + Sync) {
    share(jobs.len(), jobs, job);
}

fn share<One: Sync>(hands: usize, jobs: &[One], job: impl Fn(&One) + Sync) {
    let next = AtomicUsize::new(0);
    let work = || {
        while let Some(one) = jobs.get(next.fetch_add(1, Ordering::Relaxed)) {
            job(one);
        }
    };
    thread::scope(|scope| {
        (0..hands).for_each(|_| {
            scope.spawn(work);
        });
    });
}
