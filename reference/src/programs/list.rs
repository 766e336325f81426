//! `list` says which days there are, or which files a day has.

use super::fault::{shown_day, Fault};
use super::folder::{Folder, MAX_MACHINE};
use super::words::{day, no_such_day, Words};
use crate::dayfile::{self, File};

pub const HELP: &str = "\
list [--store FOLDER] [M N]

Lists the days that there are, or the files of day N of machine M. Without
--store the store is the folder in the environment variable ZELTUVA_STORE.

    list
    list 0 3
";

pub fn run(words: &Words, output: &mut Vec<u8>) -> Result<(), Fault> {
    match &words.words[..] {
        [machine, number] => {
            let (machine, number) = day(machine, number)?;
            let folder = Folder::open(&words.store()?)?;
            list_files(&files(&folder, machine, number)?, output);
            Ok(())
        }
        _ => list_days(&Folder::open(&words.store()?)?, output),
    }
}

/// The files of a day.
pub fn files(folder: &Folder, machine: u8, number: u32) -> Result<Vec<File>, Fault> {
    let bytes = folder.day(machine, number)?;
    let bytes = bytes.ok_or_else(|| no_such_day(machine, number))?;
    dayfile::read(machine, number, &bytes).ok_or_else(|| damaged(machine, number))
}

pub fn damaged(machine: u8, number: u32) -> Fault {
    let instead = "have its file back from elsewhere, or let it go";
    Fault::new(shown_day(machine, number), "its file is damaged", instead).by(2)
}

fn list_files(files: &[File], output: &mut Vec<u8>) {
    for file in files {
        output.extend(format!("{} ", file.length).bytes());
        output.extend(&file.path);
        output.push(b'\n');
    }
}

/// Lists all days; those that are damaged come last, as the one that is refused.
fn list_days(folder: &Folder, output: &mut Vec<u8>) -> Result<(), Fault> {
    let mut highest = Vec::new();
    for machine in 0..=MAX_MACHINE {
        highest.push((machine, folder.highest(machine)?));
    }
    let mut fault = None;
    for (machine, highest) in highest {
        for number in 1..=highest {
            let Some(bytes) = folder.day(machine, number)? else {
                continue;
            };
            match dayfile::read(machine, number, &bytes) {
                Some(files) => list_day(machine, number, &files, output),
                None => fault = fault.or(Some(damaged(machine, number))),
            }
        }
    }
    fault.map_or(Ok(()), Err)
}

fn list_day(machine: u8, number: u32, files: &[File], output: &mut Vec<u8>) {
    let bytes: u64 = files.iter().map(|file| u64::from(file.length)).sum();
    let line = format!(
        "machine {machine} day {number} files {} bytes {bytes}\n",
        files.len()
    );
    output.extend(line.bytes());
}
