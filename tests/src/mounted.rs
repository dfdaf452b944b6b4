//! A small file system of a test's own. It is mounted where nobody but the test sees it, and goes with it.

use std::env;
use std::fs::{self, File};
use std::io::{ErrorKind, Write};
use std::path::PathBuf;
use std::process::Command;

use crate::scratch::Scratch;

/// Says to a test that it may mount.
const INSIDE: &str = "CSALGODES_TESTS_MAY_MOUNT";

/// By which options `unshare` gives a process mounts of its own: as root, or as anybody in a user namespace.
fn options() -> &'static str {
    let works = |options: &&str| {
        let tried = Command::new("unshare").args([options, "true"]).output();
        tried.expect("unshare, which is in util-linux").status.success()
    };
    let found = ["-m", "-Urm"].into_iter().find(works);
    found.expect("this test mounts file systems, and so needs root or 'unshare -Urm'; neither is allowed here")
}

/// Runs a test by its name once more, in a process that may mount and sees its own mounts alone. It counts
/// once, as the test that asks for it.
pub fn alone(test: &str, body: impl FnOnce()) {
    if env::var_os(INSIDE).is_some() {
        return body();
    }
    let output = Command::new("unshare")
        .arg(options())
        .arg(env::current_exe().expect("this program has a file"))
        .args(["--exact", test, "--nocapture"])
        .env(INSIDE, "1")
        .output()
        .expect("unshare, which is in util-linux");
    let [text, trouble] = [output.stdout, output.stderr].map(|bytes| set_off(&bytes));
    let passed = text.contains("| test result: ok. 1 passed;");
    assert!(passed && output.status.success(), "in a process of its own:\n{text}{trouble}");
}

/// Lines with a mark before each, so that results among them are not taken for those of this run.
fn set_off(bytes: &[u8]) -> String {
    let text = String::from_utf8_lossy(bytes);
    text.lines().map(|line| format!("| {line}\n")).collect()
}

/// A file system in memory, mounted on a folder of a scratch.
pub struct Mounted {
    path: PathBuf,
}

impl Mounted {
    /// With the options that `mount` takes for a tmpfs.
    pub fn new(scratch: &Scratch, name: &str, options: &str) -> Mounted {
        scratch.folder(name);
        let path = scratch.at(name);
        done(Command::new("mount").args(["-t", "tmpfs", "-o", options, "none"]).arg(&path));
        Mounted { path }
    }

    pub fn make_read_only(&self) {
        done(Command::new("mount").args(["-o", "remount,bind,ro"]).arg(&self.path));
    }

    /// The bytes of a block. A file takes whole blocks.
    fn block(&self) -> u64 {
        let said = Command::new("stat").args(["-f", "-c", "%S"]).arg(&self.path).output();
        let said = String::from_utf8(said.expect("a tool of the system's").stdout);
        said.ok().and_then(|text| text.trim().parse().ok()).expect("a size")
    }

    /// Fills it until there is room for so many blocks and no more.
    pub fn fill(&self, left: u64) {
        let block = self.block();
        let mut file = File::create(self.path.join("filler")).expect("room for its name");
        let bytes = vec![1; block as usize];
        let mut blocks = 0;
        while file.write_all(&bytes).is_ok() {
            blocks += 1;
        }
        file.set_len((blocks - left) * block).expect("it can be made shorter");
    }

    /// Makes files until there can be none more.
    pub fn fill_with_names(&self) {
        let made = |number: u32| File::create_new(self.path.join(format!("filler-{number}")));
        let error = (0..).find_map(|number| made(number).err()).expect("there is an end of it");
        assert_eq!(error.kind(), ErrorKind::StorageFull, "{error}");
    }
}

impl Drop for Mounted {
    fn drop(&mut self) {
        done(Command::new("umount").arg("-l").arg(&self.path));
        let _ = fs::remove_dir(&self.path);
    }
}

fn done(command: &mut Command) {
    let output = command.output().expect("a tool of the system's");
    assert!(output.status.success(), "{command:?}: {}", String::from_utf8_lossy(&output.stderr));
}
