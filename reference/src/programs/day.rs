//! `day` makes a day of the files that are named in a list.

use super::fault::{shown, shown_day, Fault};
use super::folder::{digits, read_all, Folder, Where, Writer};
use super::names::{full, room, Names};
use super::words::{machine, Words};
use super::{say, Command};
use crate::cutting::{pieces, MAX_FILE};
use crate::dayfile::{self, MAX_FILES, MAX_PATH};
use crate::sha256::{sha256, Digest};
use std::collections::HashSet;
use std::fs::{self, File};
use std::io::{self, BufRead, BufReader, Read};
use std::path::Path;

pub const HELP: &str = "\
day [--store FOLDER] [--progress] M LIST

Machine M makes a day of the files that are named in LIST, one path on each
line, each above the one before it; '-' is standard input. Without --store the
store is the folder in the environment variable ZELTUVA_STORE.

    find . -type f | LC_ALL=C sort | day 0 -
";

/// What was done.
#[derive(Default)]
struct Counts {
    bytes: u64,
    pieces: u64,
    new: u64,
    written: u64,
}

pub fn run(words: &Words, output: &mut Vec<u8>) -> Result<(), Fault> {
    let machine = machine(&words.words[0])?;
    let folder = Folder::open(&words.store()?)?;
    check_on_list(&folder, machine)?;
    let paths = paths(&words.words[1])?;
    for path in &paths {
        open(path)?;
    }
    let _lock = folder.lock(Writer::Machine(machine))?.ok_or_else(|| {
        let why = "another program makes a day of it";
        Fault::new(
            format!("machine {machine}"),
            why,
            "wait until that one is done",
        )
        .by(3)
    })?;
    folder.clear(Writer::Machine(machine))?;
    // A number that is damaged is better known before all files were read.
    folder.highest(machine)?;
    let mut making = Making::new(&folder, machine)?;
    for (at, path) in paths.iter().enumerate() {
        if words.progress {
            let path = shown(path.as_bytes());
            let what = format!("file {} of {}: {path}", at + 1, paths.len());
            say(Command::Day, &what);
        }
        making.add(path)?;
    }
    let number = making.finish()?;
    let Counts {
        bytes,
        pieces,
        new,
        written,
    } = making.counts;
    let count = paths.len();
    output.extend(format!("day {number}\nfiles {count}\nbytes {bytes}\n").bytes());
    output.extend(format!("pieces {pieces}\nnew {new}\nwritten {written}\n").bytes());
    Ok(())
}

fn check_on_list(folder: &Folder, machine: u8) -> Result<(), Fault> {
    if folder.machines()?.contains(&machine) {
        return Ok(());
    }
    let why = "it is not on the list of machines";
    let instead = "add it by a line if it is new; one that was taken off must make no day";
    Err(Fault::new(format!("machine {machine}"), why, instead).by(1))
}

/// The paths in a list.
fn paths(list: &str) -> Result<Vec<String>, Fault> {
    if list == "-" {
        return paths_in(io::stdin().lock(), list);
    }
    let path = Path::new(list);
    let file = File::open(path).map_err(|error| Fault::of_file(path, "opened", &error))?;
    paths_in(BufReader::new(file), list)
}

fn paths_in(mut lines: impl BufRead, list: &str) -> Result<Vec<String>, Fault> {
    // No longer line can be the one of a path, with what may stand before and behind it.
    let most = MAX_PATH + 3;
    let mut paths: Vec<String> = Vec::new();
    loop {
        let mut line = Vec::new();
        let read = (&mut lines)
            .take(most as u64 + 1)
            .read_until(b'\n', &mut line);
        read.map_err(|error| Fault::of_file(Path::new(list), "read", &error))?;
        if line.is_empty() {
            return Ok(paths);
        }
        let before = paths.last().map(String::as_str);
        let path = path_in(&line, paths.len() + 1, before)?;
        if paths.len() == MAX_FILES {
            let what = format!("line {}", MAX_FILES + 1);
            let why = format!("a day has at most {MAX_FILES} files");
            return Err(Fault::new(what, why, "leave files out").by(1));
        }
        paths.push(path);
    }
}

/// The path in a line, which is to be above the one before it.
fn path_in(line: &[u8], at: usize, before: Option<&str>) -> Result<String, Fault> {
    let line = line.strip_suffix(b"\n").unwrap_or(line);
    let path = line.strip_prefix(b"./").unwrap_or(line);
    let what = || format!("line {at}, '{}'", shown(path));
    if path.is_empty() || path.len() > MAX_PATH {
        let why = format!("a path has from 1 to {MAX_PATH} bytes");
        return Err(Fault::new(what(), why, "leave it out, or give the file another path").by(1));
    }
    let Ok(text) = std::str::from_utf8(path) else {
        let instead = "leave it out, or give the file another path";
        return Err(Fault::new(what(), "the path is not UTF-8", instead));
    };
    if before.is_some_and(|before| text.as_bytes() <= before.as_bytes()) {
        let why = "the path is not above the one before it";
        return Err(Fault::new(what(), why, "sort the list by 'LC_ALL=C sort -u'").by(1));
    }
    Ok(text.to_owned())
}

/// Opens a file that a day may have.
fn open(path: &str) -> Result<File, Fault> {
    let at = Path::new(path);
    let data = fs::symlink_metadata(at);
    let data = data.map_err(|error| Fault::of_file(at, "looked at", &error))?;
    if !data.is_file() {
        let why = "it is a folder, a symbolic link or a device, and no file";
        return Err(Fault::new(
            shown(path.as_bytes()),
            why,
            "leave it out of the list",
        ));
    }
    if data.len() > MAX_FILE as u64 {
        return Err(too_long(path));
    }
    File::open(at).map_err(|error| Fault::of_file(at, "opened", &error))
}

fn too_long(path: &str) -> Fault {
    let why = format!("a file has at most {MAX_FILE} bytes");
    Fault::new(shown(path.as_bytes()), why, "leave it out of the list").by(1)
}

/// A day that is being made.
struct Making<'a> {
    folder: &'a Folder,
    machine: u8,
    names: Names,
    files: Vec<dayfile::File>,
    counts: Counts,
}

impl<'a> Making<'a> {
    fn new(folder: &'a Folder, machine: u8) -> Result<Self, Fault> {
        Ok(Making {
            folder,
            machine,
            names: Names::of(folder, Writer::Machine(machine))?,
            files: Vec::new(),
            counts: Counts::default(),
        })
    }

    /// Adds a file.
    fn add(&mut self, path: &str) -> Result<(), Fault> {
        let bytes = read_all(open(path)?, MAX_FILE);
        let bytes = bytes.map_err(|error| Fault::of_file(Path::new(path), "read", &error))?;
        let pieces = pieces(&bytes).ok_or_else(|| too_long(path))?;
        let pieces: Vec<(Digest, &[u8])> = pieces
            .into_iter()
            .map(|piece| (sha256(piece), piece))
            .collect();
        let absent = self.absent(&pieces)?;
        self.list(&absent)?;
        for (name, piece) in absent {
            self.folder
                .write_piece(Writer::Machine(self.machine), &name, piece)?;
            self.counts.new += 1;
            self.counts.written += piece.len() as u64;
        }
        self.counts.bytes += bytes.len() as u64;
        self.counts.pieces += pieces.len() as u64;
        self.files.push(dayfile::File {
            path: path.into(),
            length: bytes.len() as u32,
            pieces: pieces.into_iter().map(|(name, _)| name).collect(),
        });
        Ok(())
    }

    /// The pieces whose very bytes do not lie in their place, each once.
    fn absent<'b>(&self, pieces: &[(Digest, &'b [u8])]) -> Result<Vec<(Digest, &'b [u8])>, Fault> {
        let mut seen = HashSet::new();
        let mut absent = Vec::new();
        for &(name, piece) in pieces {
            if seen.insert(name) {
                let there = self.folder.read_piece(Where::Place, &name)?;
                if there.as_deref() != Some(piece) {
                    absent.push((name, piece));
                }
            }
        }
        Ok(absent)
    }

    /// Lists the names of these pieces, all at once, before the first is written.
    fn list(&mut self, absent: &[(Digest, &[u8])]) -> Result<(), Fault> {
        if absent.is_empty() {
            return Ok(());
        }
        let names = absent.iter().map(|(name, _)| *name);
        let new: Vec<Digest> = names.filter(|name| !self.names.has(name)).collect();
        if !new.is_empty() {
            let room = usize::try_from(room(self.folder)?).unwrap_or(usize::MAX);
            if let Some(name) = new.get(room) {
                return Err(full(format!("piece {}", digits(name))));
            }
        }
        self.names.add(self.folder, &new)
    }

    /// Raises the machine's number and names the day.
    fn finish(&mut self) -> Result<u32, Fault> {
        let (folder, machine) = (self.folder, self.machine);
        let number = folder.highest(machine)?.checked_add(1).ok_or_else(|| {
            let why = format!("it has raised {}, and there is no higher number", u32::MAX);
            let instead = "give the machine another number";
            Fault::new(format!("machine {machine}"), why, instead).by(6)
        })?;
        folder.set_highest(machine, number)?;
        let file = dayfile::write(machine, number, &self.files);
        if folder.name_day(machine, number, &file)? {
            return Ok(number);
        }
        let why = "there is a day of that number already";
        let instead = "call it again; the next day has the next number";
        Err(Fault::new(shown_day(machine, number), why, instead).by(2))
    }
}
