//! `back` writes a file of a day.

use super::fault::{shown, shown_day, shown_path, Fault};
use super::folder::{digits, remove, rename, sync, Folder};
use super::list::files;
use super::words::{day, Words};
use crate::dayfile;
use std::fs::{self, File, OpenOptions, TryLockError};
use std::io::{ErrorKind, Write};
use std::os::unix::fs::MetadataExt;
use std::path::{Path, PathBuf};

pub const HELP: &str = "\
back [--store FOLDER] M N PATH [TO]

Writes the file PATH of day N of machine M to the path TO, or else to PATH, from
the folder that it is run in. Without --store the store is the folder in the
environment variable ZELTUVA_STORE.

    back 0 3 photos/1871-04.jpg
    back 0 3 photos/1871-04.jpg /tmp/old.jpg
";

/// The name of a file that is not whole yet, in the folder where it is to be.
const UNNAMED: &str = ".zeltuva-back";

pub fn run(words: &Words, output: &mut Vec<u8>) -> Result<(), Fault> {
    let (machine, number) = day(&words.words[0], &words.words[1])?;
    let path = &words.words[2];
    let path = path.strip_prefix("./").unwrap_or(path);
    let to = words.words.get(3).map_or(path, |to| to);
    let folder = Folder::open(&words.store()?)?;
    let files = files(&folder, machine, number)?;
    let file = files.iter().find(|file| file.path == path.as_bytes());
    let file = file.ok_or_else(|| {
        let what = format!("'{}'", shown(path.as_bytes()));
        let why = format!("{} has no file of this path", shown_day(machine, number));
        let instead = format!("'list {machine} {number}' says which it has");
        Fault::new(what, why, instead).by(1)
    })?;
    let bytes = bytes(&folder, machine, number, file)?;
    write(to, &bytes)?;
    output.extend(format!("{} {to}\n", bytes.len()).bytes());
    Ok(())
}

/// The bytes of a file of a day.
fn bytes(
    folder: &Folder,
    machine: u8,
    number: u32,
    file: &dayfile::File,
) -> Result<Vec<u8>, Fault> {
    let length = file.length as usize;
    let mut bytes = Vec::with_capacity(length);
    for name in &file.pieces {
        let piece = folder.piece(name)?;
        bytes.extend(piece.ok_or_else(|| no_piece(machine, number, &digits(name)))?);
        if bytes.len() > length {
            break;
        }
    }
    if bytes.len() != length {
        let what = format!("'{}'", shown(&file.path));
        let why = format!(
            "its pieces have not the length that {} lists",
            shown_day(machine, number)
        );
        return Err(Fault::new(what, why, "have it back from another day").by(2));
    }
    Ok(bytes)
}

/// A piece of a day is not there.
pub fn no_piece(machine: u8, number: u32, digits: &str) -> Fault {
    let day = shown_day(machine, number);
    let why =
        format!("{day} has it, and it is neither in its place nor aside with the right bytes");
    let instead = "a new day of a machine that has its file writes it anew";
    Fault::new(format!("piece {digits}"), why, instead).by(2)
}

/// Writes a file whole, or not at all.
fn write(to: &str, bytes: &[u8]) -> Result<(), Fault> {
    let folder = folder_of(to)?;
    make_folders(&folder)?;
    let unnamed = folder.join(UNNAMED);
    // It is locked till it has its name.
    let mut file = make_unnamed(&unnamed)?;
    let written = file.write_all(bytes).and_then(|()| file.sync_all());
    let named = written
        .map_err(|error| Fault::of_file(&unnamed, "written", &error))
        .and_then(|()| rename(&unnamed, Path::new(to)));
    if named.is_err() {
        _ = remove(&unnamed);
    }
    named?;
    sync(&folder)
}

/// The folder in which a file of this path is.
fn folder_of(to: &str) -> Result<PathBuf, Fault> {
    let (folder, name) = match to.rsplit_once('/') {
        Some(("", name)) => ("/", name),
        Some((folder, name)) => (folder, name),
        None => (".", to),
    };
    if name.is_empty() || name == "." || name == ".." || Path::new(to).is_dir() {
        let what = format!("'{}'", shown(to.as_bytes()));
        let instead = "name the file that is to be written";
        return Err(Fault::new(what, "it is the path of a folder", instead));
    }
    Ok(folder.into())
}

/// Makes the folders that are not there, durably.
fn make_folders(folder: &Path) -> Result<(), Fault> {
    if folder.is_dir() {
        return Ok(());
    }
    let above = match folder.parent() {
        Some(above) if above.as_os_str().is_empty() => Path::new("."),
        Some(above) => above,
        None => folder,
    };
    if above != folder {
        make_folders(above)?;
    }
    match fs::create_dir(folder) {
        Ok(()) => {}
        Err(error) if error.kind() == ErrorKind::AlreadyExists && folder.is_dir() => {}
        Err(error) => return Err(Fault::of_file(folder, "made", &error)),
    }
    sync(above)
}

/// Makes the file that is not whole yet, and locks it, so that no other program takes
/// what is being written for what a stop has left.
fn make_unnamed(path: &Path) -> Result<File, Fault> {
    remove_left(path)?;
    let made = OpenOptions::new().write(true).create_new(true).open(path);
    let file = match made {
        Err(error) if error.kind() == ErrorKind::AlreadyExists => return Err(busy(path)),
        made => made.map_err(|error| Fault::of_file(path, "made", &error))?,
    };
    if is_taken(&file, path) {
        return Err(busy(path));
    }
    Ok(file)
}

/// Removes what a stop has left under this name.
fn remove_left(path: &Path) -> Result<(), Fault> {
    if !fs::symlink_metadata(path).is_ok_and(|left| left.is_file()) {
        // A symbolic link, or nothing.
        return remove(path).map(|_| ());
    }
    match File::open(path) {
        Ok(left) if is_taken(&left, path) => Err(busy(path)),
        _ => remove(path).map(|_| ()),
    }
}

/// Whether another program holds the file's lock, or has taken its name from it.
fn is_taken(file: &File, path: &Path) -> bool {
    if matches!(file.try_lock(), Err(TryLockError::WouldBlock)) {
        return true;
    }
    let number = |data: fs::Metadata| (data.dev(), data.ino());
    let its_own = file.metadata().map(number).ok();
    fs::symlink_metadata(path).map(number).ok() != its_own
}

fn busy(path: &Path) -> Fault {
    let why = "another program is writing a file that it has had back to this folder";
    Fault::new(
        shown_path(path),
        why,
        "wait until it is done, and call it again",
    )
}
