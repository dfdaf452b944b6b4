//! The files in docs/. All are written beside their places before the first is renamed, so a run that fails or
//! is killed before then leaves them as they were.

use std::fs::{self, File, Permissions};
use std::io::{self, ErrorKind, Write};
use std::os::unix::fs::PermissionsExt;

const DOCS: &str = concat!(env!("CARGO_MANIFEST_DIR"), "/../docs");

fn place(name: &str) -> String {
    format!("{DOCS}/{name}")
}

/// One run at a time writes (`bench/run` holds a lock), so the name may be the same each time.
fn beside(name: &str) -> String {
    format!("{DOCS}/.{name}.new")
}

/// What the file holds; none where there is no file.
pub fn read(name: &str) -> Result<Option<String>, String> {
    match fs::read_to_string(place(name)) {
        Ok(text) => Ok(Some(text)),
        Err(error) if error.kind() == ErrorKind::NotFound => Ok(None),
        Err(error) => Err(format!("docs/{name} cannot be read: {error}")),
    }
}

/// Puts each text in the place of the file of its name.
pub fn put(files: &[(&str, String)]) -> Result<(), String> {
    let done = put_all(files);
    if done.is_err() {
        files.iter().for_each(|(name, _)| drop(fs::remove_file(beside(name))));
    }
    done
}

fn put_all(files: &[(&str, String)]) -> Result<(), String> {
    let wrong = |name| move |error| format!("docs/{name} cannot be written: {error}");
    for (name, text) in files {
        write_new(&beside(name), text).map_err(wrong(name))?;
    }
    for (name, _) in files {
        fs::rename(beside(name), place(name)).map_err(wrong(name))?;
    }
    Ok(())
}

/// What a killed run left under this name goes, and a link there is not followed.
fn write_new(path: &str, text: &str) -> io::Result<()> {
    match fs::remove_file(path) {
        Err(error) if error.kind() != ErrorKind::NotFound => return Err(error),
        _ => {}
    }
    let mut file = File::create_new(path)?;
    file.write_all(text.as_bytes())?;
    file.set_permissions(Permissions::from_mode(0o644))?;
    file.sync_all()
}
