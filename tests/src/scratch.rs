//! A folder of a test's own, below the target folder. It goes when the test ends.

use std::collections::BTreeMap;
use std::ffi::{OsStr, OsString};
use std::fmt;
use std::fs::{self, File};
use std::io::Read;
use std::os::unix::ffi::OsStrExt;
use std::os::unix::fs::{FileTypeExt, MetadataExt, PermissionsExt};
use std::path::{Path, PathBuf};
use std::sync::atomic::{AtomicUsize, Ordering};

use crate::order::SLOT;
use crate::peer::TARGET;
use crate::run::{Ended, Run};

static MADE: AtomicUsize = AtomicUsize::new(0);

/// Of a file that is greater, no more is read when it is looked at.
const LOOKED_AT: u64 = 1 << 20;

pub struct Scratch {
    path: PathBuf,
}

impl Default for Scratch {
    fn default() -> Scratch {
        Scratch::new()
    }
}

impl Scratch {
    pub fn new() -> Scratch {
        let number = MADE.fetch_add(1, Ordering::Relaxed);
        let path = format!("{TARGET}/outside/tmp/scratch-{}-{number}", std::process::id());
        // one that was killed long ago may have had the same number
        let _ = fs::remove_dir_all(&path);
        fs::create_dir_all(&path).expect("the tests may write below the target folder");
        Scratch { path: fs::canonicalize(path).expect("it was made") }
    }

    pub fn path(&self) -> &Path {
        &self.path
    }

    pub fn at(&self, name: impl AsRef<Path>) -> PathBuf {
        self.path.join(name)
    }

    pub fn has(&self, name: impl AsRef<Path>) -> bool {
        fs::symlink_metadata(self.at(name)).is_ok()
    }

    pub fn write(&self, name: impl AsRef<Path>, bytes: &[u8]) {
        fs::write(self.at(name), bytes).expect("the tests may write here");
    }

    pub fn read(&self, name: impl AsRef<Path>) -> Vec<u8> {
        let path = self.at(name);
        fs::read(&path).unwrap_or_else(|error| panic!("{path:?}: {error}"))
    }

    pub fn remove(&self, name: impl AsRef<Path>) {
        let path = self.at(name);
        let is_folder = fs::symlink_metadata(&path).expect("it is there").is_dir();
        let removed = if is_folder { fs::remove_dir_all(&path) } else { fs::remove_file(&path) };
        removed.expect("the tests may remove it");
    }

    pub fn remove_if_there(&self, name: impl AsRef<Path>) {
        if self.has(&name) {
            self.remove(name);
        }
    }

    pub fn folder(&self, name: impl AsRef<Path>) {
        fs::create_dir(self.at(name)).expect("the tests may write here");
    }

    /// A tray as a folder of slots.
    pub fn tray(&self, name: impl AsRef<Path>, tray: &[u8]) {
        self.folder(&name);
        for (slot, keeper) in tray.chunks(SLOT).zip(1..) {
            self.write(name.as_ref().join(u32::to_string(&keeper)), slot);
        }
    }

    /// The slots of a folder, end to end.
    pub fn slots(&self, name: impl AsRef<Path>, count: u32) -> Vec<u8> {
        let slot = |keeper: u32| self.read(name.as_ref().join(keeper.to_string()));
        (1..=count).flat_map(slot).collect()
    }

    pub fn mode(&self, name: impl AsRef<Path>) -> u32 {
        mode(&fs::symlink_metadata(self.at(name)).expect("it is there"))
    }

    pub fn set_mode(&self, name: impl AsRef<Path>, mode: u32) {
        let changed = fs::set_permissions(self.at(name), fs::Permissions::from_mode(mode));
        changed.expect("the tests may change what they made");
    }

    /// What stands in it, in order.
    pub fn names(&self) -> Vec<OsString> {
        names(&self.path)
    }

    /// Holds it to these names and no other.
    #[track_caller]
    pub fn holds(&self, names: &[&str]) {
        let mut names: Vec<&OsStr> = names.iter().map(OsStr::new).collect();
        names.sort();
        assert_eq!(self.names(), names);
    }

    /// All that stands in it and below, to be compared with what stands there later.
    pub fn look(&self) -> Sight {
        look(&self.path)
    }

    /// A run of the program in this folder.
    pub fn line(&self, line: &str) -> Run {
        Run::line(&self.path, line)
    }

    /// How the program ends on these words, which have no space in them.
    #[track_caller]
    pub fn run(&self, line: &str) -> Ended {
        self.line(line).end()
    }
}

impl Drop for Scratch {
    fn drop(&mut self) {
        if let Err(error) = fs::remove_dir_all(&self.path) {
            eprintln!("{:?} stays behind: {error}", self.path);
        }
    }
}

/// The names in a folder, in order.
pub fn names(folder: &Path) -> Vec<OsString> {
    let entries = fs::read_dir(folder).expect("a folder");
    let mut names: Vec<OsString> =
        entries.map(|entry| entry.expect("it can be read").file_name()).collect();
    names.sort();
    names
}

fn mode(of: &fs::Metadata) -> u32 {
    of.permissions().mode() & 0o7777
}

/// All that stands in a folder and below, by name.
pub type Sight = BTreeMap<PathBuf, Seen>;

/// One thing in a folder, and whatever would change if somebody wrote to it or put another in its place.
#[derive(PartialEq, Eq)]
pub struct Seen {
    kind: &'static str,
    mode: u32,
    owner: (u32, u32),
    node: u64,
    size: u64,
    bytes: Vec<u8>,
}

impl fmt::Debug for Seen {
    fn fmt(&self, to: &mut fmt::Formatter) -> fmt::Result {
        let Seen { kind, mode, owner, node, size, .. } = self;
        write!(to, "{kind} {mode:o} of {owner:?}, node {node}, {size} bytes")
    }
}

pub fn look(folder: &Path) -> Sight {
    let mut sight = Sight::new();
    for name in names(folder) {
        let path = folder.join(&name);
        let seen = Seen::at(&path);
        if seen.kind == "folder" {
            let below = look(&path).into_iter();
            sight.extend(below.map(|(deeper, seen)| (Path::new(&name).join(deeper), seen)));
        }
        sight.insert(name.into(), seen);
    }
    sight
}

impl Seen {
    fn at(path: &Path) -> Seen {
        let data = fs::symlink_metadata(path).expect("it is there");
        let kind = kind(data.file_type());
        let is_folder = kind == "folder";
        Seen {
            kind,
            mode: mode(&data),
            owner: (data.uid(), data.gid()),
            node: data.ino(),
            // a folder's own size says nothing
            size: if is_folder { 0 } else { data.size() },
            bytes: inside(path, kind),
        }
    }
}

fn kind(of: fs::FileType) -> &'static str {
    match of {
        of if of.is_symlink() => "link",
        of if of.is_dir() => "folder",
        of if of.is_fifo() => "FIFO",
        of if of.is_socket() => "socket",
        of if of.is_char_device() || of.is_block_device() => "device",
        _ => "file",
    }
}

/// A file's bytes, or where a link leads. Of a file that may not be read there are none.
fn inside(path: &Path, kind: &str) -> Vec<u8> {
    let mut bytes = Vec::new();
    match kind {
        "link" => bytes = fs::read_link(path).expect("a link").as_os_str().as_bytes().to_vec(),
        "file" => {
            if let Ok(file) = File::open(path) {
                file.take(LOOKED_AT).read_to_end(&mut bytes).expect("a file that can be read");
            }
        }
        _ => {}
    }
    bytes
}
