//! `init` makes a new store.

use super::fault::{shown, shown_path, Fault};
use super::folder::{sync, Folder, MAX_MACHINE};
use super::words::{machine, no_number, number, Words};
use std::collections::BTreeSet;
use std::fs;
use std::io::ErrorKind;
use std::path::Path;

pub const HELP: &str = "\
init [--store FOLDER] MACHINE..

Makes a new store with these machines, numbers from 0 to 63, on its list.
The folder is made if it is not there. Without --store it is the one in the
environment variable ZELTUVA_STORE.

    init --store /backup/store 0-2 7
";

pub fn run(words: &Words, output: &mut Vec<u8>) -> Result<(), Fault> {
    let machines = machines(&words.words)?;
    let top = words.store()?;
    let folder = Folder::at(&top);
    make(folder.top())?;
    // Whatever the folder was made for is no concern of one that is a store already.
    if folder.has_list_of_machines()? {
        let why = "it is a store already";
        let instead = "name another folder, or add a machine to its list by a line";
        return Err(Fault::new(shown(top.as_bytes()), why, instead));
    }
    for inner in folder.folders() {
        make(&inner)?;
    }
    sync(&folder.folder("d"))?;
    sync(folder.top())?;
    sync(above(folder.top()))?;
    folder.make_list_of_machines(&machines)?;
    output.extend(format!("store {top}\nmachines {}\n", machines.len()).bytes());
    Ok(())
}

/// The machines that the words name, by numbers and ranges of them.
fn machines(words: &[String]) -> Result<BTreeSet<u8>, Fault> {
    let mut machines = BTreeSet::new();
    for word in words {
        let (first, last) = range(word)?;
        for machine in first..=last {
            if !machines.insert(machine) {
                let why = "it is named twice";
                let what = format!("machine {machine}");
                return Err(Fault::new(what, why, "name each machine once"));
            }
        }
    }
    Ok(machines)
}

fn range(word: &str) -> Result<(u8, u8), Fault> {
    let Some((first, last)) = word.split_once('-') else {
        let machine = machine(word)?;
        return Ok((machine, machine));
    };
    if number(first).is_none() || number(last).is_none() {
        return Err(no_number(word));
    }
    let (first, last) = (machine(first)?, machine(last)?);
    if first > last {
        let what = format!("'{word}'");
        let instead = format!("write the lower number first, as '0-{MAX_MACHINE}'");
        return Err(Fault::new(what, "the range falls", instead));
    }
    Ok((first, last))
}

/// Makes a folder, if it is not there.
fn make(folder: &Path) -> Result<(), Fault> {
    match fs::create_dir(folder) {
        Ok(()) => Ok(()),
        Err(error) if error.kind() == ErrorKind::AlreadyExists => {
            if folder.is_dir() {
                return Ok(());
            }
            let why = "it is no folder, and one is to be made there";
            Err(Fault::new(shown_path(folder), why, "give it another name"))
        }
        Err(error) if error.kind() == ErrorKind::NotFound => {
            let why = "the folder that it is to be made in is not there";
            Err(Fault::new(shown_path(folder), why, "make that one first"))
        }
        Err(error) => Err(Fault::of_file(folder, "made", &error)),
    }
}

/// The folder that a folder is in.
fn above(folder: &Path) -> &Path {
    match folder.parent() {
        Some(above) if above.as_os_str().is_empty() => Path::new("."),
        Some(above) => above,
        None => folder,
    }
}

#[cfg(test)]
mod tests {
    use super::*;

    fn of(words: &[&str]) -> Option<Vec<u8>> {
        let words: Vec<String> = words.iter().map(|&word| word.to_owned()).collect();
        Some(machines(&words).ok()?.into_iter().collect())
    }

    #[test]
    fn numbers_and_ranges() {
        assert_eq!(of(&["1", "0"]), Some(vec![0, 1]));
        assert_eq!(of(&["0-2", "63"]), Some(vec![0, 1, 2, 63]));
        assert_eq!(of(&["5-5"]), Some(vec![5]));
        for wrong in ["64", "0-64", "5-4", "0-", "-", "x", "0-1-2", "00", "0-01"] {
            assert_eq!(of(&[wrong]), None, "{wrong}");
        }
        assert_eq!(of(&["0", "0"]), None);
        assert_eq!(of(&["0-2", "1"]), None);
    }
}
