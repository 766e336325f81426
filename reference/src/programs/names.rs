//! The lists of names: what is listed can be found again.

use super::fault::{shown_path, Fault};
use super::folder::{check_folder, read, sync, Folder, Writer};
use crate::sha256::Digest;
use std::collections::HashSet;
use std::fs::{self, OpenOptions};
use std::io::{self, ErrorKind, Seek, SeekFrom, Write};
use std::path::Path;

/// The names that all lists together may have.
const MAX_NAMES: u64 = 262_144;

/// The bytes that a list may have.
const MAX_LIST: usize = 16_777_216;

const NAME: u64 = 32;

/// The list of a writer.
pub struct Names {
    writer: Writer,
    known: HashSet<Digest>,
    /// Whether all that is in the list is durable. What is there at first may have
    /// been written by a program that was stopped before it synced it.
    is_durable: bool,
}

impl Names {
    pub fn of(folder: &Folder, writer: Writer) -> Result<Names, Fault> {
        let known = listed(folder, writer)?.into_iter().collect();
        Ok(Names {
            writer,
            known,
            is_durable: false,
        })
    }

    pub fn has(&self, name: &Digest) -> bool {
        self.known.contains(name)
    }

    /// Lists these names, none of which it has. All that is listed is durable then.
    pub fn add(&mut self, folder: &Folder, names: &[Digest]) -> Result<(), Fault> {
        if names.is_empty() && self.is_durable {
            return Ok(());
        }
        let path = folder.names_path(self.writer);
        let written = append(&path, names);
        written.map_err(|error| Fault::of_file(&path, "written", &error))?;
        if !self.is_durable {
            // The list may be new, or made by a program that was stopped.
            sync(&folder.folder("i"))?;
        }
        self.is_durable = true;
        self.known.extend(names);
        Ok(())
    }
}

/// Takes off a torn end, adds the names and syncs the list.
fn append(path: &Path, names: &[Digest]) -> io::Result<()> {
    let mut options = OpenOptions::new();
    let mut file = options
        .write(true)
        .create(true)
        .truncate(false)
        .open(path)?;
    let length = file.metadata()?.len();
    let whole = length - length % NAME;
    if whole < length {
        file.set_len(whole)?;
    }
    file.seek(SeekFrom::Start(whole))?;
    if !names.is_empty() {
        file.write_all(&names.concat())?;
    }
    file.sync_all()
}

/// The names in a list; what is left behind the last whole one counts for nothing.
pub fn listed(folder: &Folder, writer: Writer) -> Result<Vec<Digest>, Fault> {
    let path = folder.names_path(writer);
    let bytes = read(&path, &folder.folder("i"), MAX_LIST)?.unwrap_or_default();
    if bytes.len() > MAX_LIST {
        let why = format!("this list of names has more than {MAX_LIST} bytes");
        let instead = "have it back from elsewhere; no program writes such a list";
        return Err(Fault::new(shown_path(&path), why, instead));
    }
    let (names, _) = bytes.as_chunks::<32>();
    Ok(names.to_vec())
}

/// How many more names all lists together have room for.
pub fn room(folder: &Folder) -> Result<u64, Fault> {
    let mut count = 0;
    for writer in Writer::all() {
        let path = folder.names_path(writer);
        match fs::metadata(&path) {
            Ok(list) => count += list.len() / NAME,
            Err(error) if error.kind() == ErrorKind::NotFound => {}
            Err(error) => return Err(Fault::of_file(&path, "looked at", &error)),
        }
    }
    check_folder(&folder.folder("i"))?;
    Ok(MAX_NAMES.saturating_sub(count))
}

/// All lists together have no room for a name.
pub fn full(what: impl Into<String>) -> Fault {
    let why = format!("all lists together have at most {MAX_NAMES} names, and there is no room");
    Fault::new(what, why, "make a new store for what comes now").by(5)
}

#[cfg(test)]
mod tests {
    use super::*;
    use std::env;

    /// A torn end is taken off, wherever it was cut, and what is added follows whole names.
    #[test]
    fn torn_ends() {
        let path = env::temp_dir().join(format!("names-{}", std::process::id()));
        for torn in 0..32 {
            let whole = [[1; 32], [2; 32]].concat();
            let before = [&whole[..], &vec![3; torn]].concat();
            fs::write(&path, before).expect("there is room");
            append(&path, &[]).expect("there is room");
            assert_eq!(fs::read(&path).expect("it is there"), whole);
            fs::write(&path, [&whole[..], &vec![3; torn]].concat()).expect("there is room");
            append(&path, &[[4; 32], [5; 32]]).expect("there is room");
            let after = [&whole[..], &[4; 32], &[5; 32]].concat();
            assert_eq!(fs::read(&path).expect("it is there"), after);
        }
        fs::remove_file(&path).expect("it is there");
    }
}
