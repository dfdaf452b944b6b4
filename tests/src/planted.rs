//! Things that stand where a file or a folder is looked for, and are none.

use std::fs::{self, File};
use std::os::fd::AsRawFd;
use std::os::unix::fs::{symlink, MetadataExt};
use std::os::unix::net::UnixListener;
use std::path::Path;
use std::process::Command;

#[derive(Clone, Copy, Debug, PartialEq, Eq)]
pub enum Planted {
    /// A link to what is not there.
    Dangling,
    /// A link to a file beside it, which has this name.
    Link(&'static str),
    Fifo,
    Folder,
    /// The one like `/dev/null`, which takes all that is written to it.
    Device,
    Socket,
}

use Planted::{Dangling, Device, Fifo, Folder, Socket};

/// Those that are no file and lead to none. Only the system's own user can make a device.
pub fn no_files() -> Vec<Planted> {
    let mut all = vec![Dangling, Fifo, Folder, Socket];
    if is_root() {
        all.push(Device);
    } else {
        println!("left out: a device, which only root can make");
    }
    all
}

/// Those, and a link to a file of this name.
pub fn all_kinds(file: &'static str) -> Vec<Planted> {
    let mut all = no_files();
    all.push(Planted::Link(file));
    all
}

pub fn is_root() -> bool {
    fs::metadata("/proc/self").expect("a process has a folder there").uid() == 0
}

impl Planted {
    pub fn plant(self, path: &Path) {
        match self {
            Dangling => symlink("nothing-is-there", path).expect("a link"),
            Planted::Link(file) => symlink(file, path).expect("a link"),
            Fifo => make(Command::new("mkfifo").arg(path)),
            Folder => fs::create_dir(path).expect("a folder"),
            Device => make(Command::new("mknod").arg(path).args(["c", "1", "3"])),
            Socket => plant_socket(path),
        }
    }
}

fn make(command: &mut Command) {
    assert!(command.status().expect("a tool of the system's").success(), "{command:?}");
}

/// A socket's name may not be long. The folder's number is short, and so the socket is made by that.
fn plant_socket(path: &Path) {
    let folder = File::open(path.parent().expect("a folder")).expect("a folder");
    let name = path.file_name().expect("a name");
    let short = Path::new("/proc/self/fd").join(folder.as_raw_fd().to_string());
    let made = short.join("socket");
    UnixListener::bind(&made).expect("a socket");
    fs::rename(&made, short.join(name)).expect("its own name");
}
