//! `sweep` gets rid of pieces that no day has.

use super::back::no_piece;
use super::fault::Fault;
use super::folder::{digits, sync, Folder, State, Where, Writer, MAX_MACHINE};
use super::list::damaged;
use super::names::{full, listed, room, Names};
use super::words::Words;
use super::{say, Command};
use crate::dayfile;
use crate::sha256::Digest;
use std::collections::{BTreeSet, HashSet};

pub const HELP: &str = "\
sweep [--store FOLDER] [--progress]

Ends the sweep that is under way, if every machine on the list has finished a
day since, and begins the next one where none is under way then. Without --store
the store is the folder in the environment variable ZELTUVA_STORE.

    sweep
";

/// How many pieces were moved.
#[derive(Default)]
struct Moved {
    aside: u64,
    back: u64,
    away: u64,
}

pub fn run(words: &Words, output: &mut Vec<u8>) -> Result<(), Fault> {
    let folder = Folder::open(&words.store()?)?;
    let _lock = folder.lock(Writer::Sweeper)?.ok_or_else(|| {
        Fault::new(
            "store",
            "another sweep is running",
            "wait until that one is done",
        )
        .by(4)
    })?;
    folder.clear(Writer::Sweeper)?;
    // What is read of the sweeper now may be the work of one that was stopped before
    // it was durable, and what follows from it must not be durable before it is.
    sync(folder.top())?;
    let mut sweep = Sweep {
        machines: folder.machines()?,
        folder: &folder,
        progress: words.progress,
        moved: Moved::default(),
    };
    let waits_for = sweep.run()?;
    let Moved { aside, back, away } = sweep.moved;
    output.extend(format!("put aside {aside}\nput back {back}\nthrown away {away}\n").bytes());
    output.extend(waiting(&waits_for).bytes());
    Ok(())
}

/// The line that says for which machines the sweeper waits.
fn waiting(machines: &BTreeSet<u8>) -> String {
    if machines.is_empty() {
        return "rests\n".to_owned();
    }
    let numbers: String = machines
        .iter()
        .map(|machine| format!(" {machine}"))
        .collect();
    format!("waits for{numbers}\n")
}

struct Sweep<'a> {
    folder: &'a Folder,
    machines: BTreeSet<u8>,
    progress: bool,
    moved: Moved,
}

impl Sweep<'_> {
    /// Does as much as may be done. The answer is which machines it waits for then.
    fn run(&mut self) -> Result<BTreeSet<u8>, Fault> {
        match self.folder.state()? {
            State::Rests => {}
            State::Waits(noted) => {
                // Which machines have finished a day is looked at before the days are
                // read: else a day might count whose pieces do not.
                let late = self.late(&noted)?;
                if !late.is_empty() {
                    return Ok(late);
                }
                self.end()?;
            }
            State::Ends => self.end()?,
        }
        self.begin()
    }

    fn say(&self, what: &str) {
        if self.progress {
            say(Command::Sweep, what);
        }
    }

    /// The machines on the list that have no day above the noted number.
    fn late(&self, noted: &[u32]) -> Result<BTreeSet<u8>, Fault> {
        let mut late = BTreeSet::new();
        for &machine in &self.machines {
            if !self.has_day_above(machine, noted[usize::from(machine)])? {
                late.insert(machine);
            }
        }
        Ok(late)
    }

    fn has_day_above(&self, machine: u8, noted: u32) -> Result<bool, Fault> {
        let highest = self.folder.highest(machine)?;
        for number in (noted..highest).rev() {
            if self.folder.has_day(machine, number + 1)? {
                return Ok(true);
            }
        }
        Ok(false)
    }

    /// Decides on what is aside, and puts it back or throws it away.
    fn end(&mut self) -> Result<(), Fault> {
        let had = self.pieces_of_days()?;
        let (mut back, mut away) = (Vec::new(), Vec::new());
        let names: BTreeSet<Digest> = listed(self.folder, Writer::Sweeper)?.into_iter().collect();
        for name in names {
            if !self.folder.lies(Where::Aside, &name)? {
                continue;
            }
            let goes_back =
                had.contains(&name) && self.folder.piece_in(Where::Aside, &name)?.is_some();
            if goes_back {
                back.push(name);
            } else {
                away.push(name);
            }
        }
        self.say(&format!(
            "puts back {}, throws away {}",
            back.len(),
            away.len()
        ));
        if back.is_empty() && away.is_empty() {
            return self.folder.keep_state(&State::Rests);
        }
        self.folder.keep_state(&State::Ends)?;
        for name in back {
            self.moved.back += u64::from(self.folder.move_from(Where::Aside, &name)?);
        }
        for name in away {
            self.moved.away += u64::from(self.folder.throw_away(&name)?);
        }
        self.folder.keep_state(&State::Rests)
    }

    /// Puts aside what no day has, and notes the numbers. The answer is which machines
    /// it waits for.
    fn begin(&mut self) -> Result<BTreeSet<u8>, Fault> {
        let left = self.look()?;
        self.say(&format!("puts aside {}", left.len()));
        self.put_aside(&left)?;
        let mut noted = Vec::new();
        for machine in 0..=MAX_MACHINE {
            noted.push(self.folder.highest(machine)?);
        }
        self.folder.keep_state(&State::Waits(noted))?;
        Ok(self.machines.clone())
    }

    /// What is in its place and in no day, each once, in order.
    fn look(&self) -> Result<BTreeSet<Digest>, Fault> {
        let had = self.pieces_of_days()?;
        let mut names = BTreeSet::new();
        for writer in Writer::all() {
            names.extend(listed(self.folder, writer)?);
        }
        names.retain(|name| !had.contains(name));
        let mut left = BTreeSet::new();
        for name in names {
            if self.folder.lies(Where::Place, &name)? {
                left.insert(name);
            }
        }
        Ok(left)
    }

    /// Puts these pieces aside, up to the first that there is no room for.
    fn put_aside(&mut self, left: &BTreeSet<Digest>) -> Result<(), Fault> {
        if left.is_empty() {
            return Ok(());
        }
        let mut names = Names::of(self.folder, Writer::Sweeper)?;
        let mut room = room(self.folder)?;
        let (mut listed, mut refused) = (Vec::new(), None);
        for name in left.iter().filter(|name| !names.has(name)) {
            if room == 0 {
                refused = Some(name);
                break;
            }
            room -= 1;
            listed.push(*name);
        }
        names.add(self.folder, &listed)?;
        for name in left.iter().take_while(|name| Some(*name) != refused) {
            self.moved.aside += u64::from(self.folder.move_from(Where::Place, name)?);
        }
        match refused {
            None => Ok(()),
            Some(name) => Err(full(format!("piece {}", digits(name)))),
        }
    }

    /// The names that any day has. The files of all days are read, and all their pieces.
    fn pieces_of_days(&self) -> Result<HashSet<Digest>, Fault> {
        let mut had = HashSet::new();
        for machine in 0..=MAX_MACHINE {
            for number in 1..=self.folder.highest(machine)? {
                let Some(bytes) = self.folder.day(machine, number)? else {
                    continue;
                };
                self.say(&format!("reads day {number} of machine {machine}"));
                let files = dayfile::read(machine, number, &bytes);
                let files = files.ok_or_else(|| damaged(machine, number))?;
                for name in files.into_iter().flat_map(|file| file.pieces) {
                    if had.insert(name) && self.folder.piece(&name)?.is_none() {
                        return Err(no_piece(machine, number, &digits(&name)));
                    }
                }
            }
        }
        Ok(had)
    }
}
