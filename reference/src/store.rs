//! A store in memory, as `docs/STORE.md` has it: what it holds, and what is asked
//! of it.

use crate::dayfile::{self, File};
use crate::refusal::Refusal;
use crate::sha256::{sha256, Digest};
use std::collections::{BTreeMap, BTreeSet};

/// The names that all lists together may have.
pub const MAX_LISTED: usize = 262_144;

/// The highest number that a machine may have as its own.
pub const LAST_MACHINE: u32 = 63;

#[derive(Clone, Debug, Default, PartialEq, Eq)]
pub struct Store {
    /// The list of machines.
    pub machines: BTreeSet<u32>,
    /// The bytes in each place, by the name of the piece that the place is for.
    pub place: BTreeMap<Digest, Vec<u8>>,
    /// The same aside.
    pub aside: BTreeMap<Digest, Vec<u8>>,
    /// The names in the list of each machine.
    pub listed: BTreeSet<(u32, Digest)>,
    /// The names in the list of the sweeper.
    pub sweeper_listed: BTreeSet<Digest>,
    /// The bytes that lie under the name of each day, which is its machine and number.
    pub days: BTreeMap<(u32, u32), Vec<u8>>,
    /// The highest number of each machine that has raised one.
    pub highest: BTreeMap<u32, u32>,
    /// What the sweeper does.
    pub sweeper: Kept,
}

/// What is kept of what the sweeper does.
#[derive(Clone, Debug, Default, PartialEq, Eq)]
pub enum Kept {
    #[default]
    Rests,
    /// With the highest number of each machine that it has noted; none is 0.
    Waits(BTreeMap<u32, u32>),
    /// It puts back and throws away.
    Ends,
}

impl Store {
    /// An empty store with these machines on its list.
    pub fn new(machines: impl IntoIterator<Item = u32>) -> Self {
        Store {
            machines: machines.into_iter().collect(),
            ..Store::default()
        }
    }

    pub fn has_machine(&self, machine: u32) -> bool {
        self.machines.contains(&machine)
    }

    /// Takes a machine off the list of machines.
    pub fn take_off_list(&mut self, machine: u32) -> Result<(), Refusal> {
        if self.machines.remove(&machine) {
            Ok(())
        } else {
            Err(Refusal::NotThere)
        }
    }

    /// The bytes in a piece's place, of that name or not.
    pub fn read(&self, name: &Digest) -> Option<&[u8]> {
        self.place.get(name).map(Vec::as_slice)
    }

    /// The same aside.
    pub fn read_aside(&self, name: &Digest) -> Option<&[u8]> {
        self.aside.get(name).map(Vec::as_slice)
    }

    /// Whether the piece is in its place, so that its very bytes lie there.
    pub fn in_place(&self, name: &Digest) -> bool {
        self.read(name).is_some_and(|bytes| sha256(bytes) == *name)
    }

    /// The same aside.
    pub fn is_aside(&self, name: &Digest) -> bool {
        let bytes = self.read_aside(name);
        bytes.is_some_and(|bytes| sha256(bytes) == *name)
    }

    /// Adds a name to the list of a machine.
    pub fn list(&mut self, machine: u32, name: Digest) -> Result<(), Refusal> {
        let entry = (machine, name);
        if self.lists_are_full() && !self.listed.contains(&entry) {
            return Err(Refusal::ListsFull);
        }
        self.listed.insert(entry);
        Ok(())
    }

    /// Adds a name to the list of the sweeper.
    pub fn list_for_sweeper(&mut self, name: Digest) -> Result<(), Refusal> {
        if self.lists_are_full() && !self.sweeper_listed.contains(&name) {
            return Err(Refusal::ListsFull);
        }
        self.sweeper_listed.insert(name);
        Ok(())
    }

    fn lists_are_full(&self) -> bool {
        self.listed.len() + self.sweeper_listed.len() >= MAX_LISTED
    }

    /// The names in all lists, some of them more than once.
    pub fn all_listed(&self) -> impl Iterator<Item = &Digest> {
        let machines = self.listed.iter().map(|(_, name)| name);
        machines.chain(&self.sweeper_listed)
    }

    pub fn write(&mut self, name: Digest, bytes: &[u8]) {
        self.place.insert(name, bytes.to_vec());
    }

    pub fn put_aside(&mut self, name: Digest) {
        if let Some(bytes) = self.place.remove(&name) {
            self.aside.insert(name, bytes);
        }
    }

    pub fn put_back(&mut self, name: Digest) {
        if let Some(bytes) = self.aside.remove(&name) {
            self.place.insert(name, bytes);
        }
    }

    /// Throws away what lies aside.
    pub fn throw_away(&mut self, name: &Digest) {
        self.aside.remove(name);
    }

    /// The highest number that the machine ever raised, or 0.
    pub fn highest(&self, machine: u32) -> u32 {
        self.highest.get(&machine).copied().unwrap_or(0)
    }

    pub fn set_highest(&mut self, machine: u32, number: u32) {
        self.highest.insert(machine, number);
    }

    pub fn name_day(&mut self, machine: u32, number: u32, bytes: &[u8]) -> Result<(), Refusal> {
        if self.days.contains_key(&(machine, number)) {
            return Err(Refusal::NameTaken);
        }
        self.days.insert((machine, number), bytes.to_vec());
        Ok(())
    }

    /// The machine and the number of each day, and the bytes that lie under its name.
    /// Days are found by their numbers, up to the highest of their machine.
    pub fn each_day(&self) -> impl Iterator<Item = (u32, u32, &[u8])> {
        (0..=LAST_MACHINE).flat_map(|machine| {
            let days = self.days.range((machine, 1)..);
            let last = (machine, self.highest(machine));
            let days = days.take_while(move |(&day, _)| day <= last);
            days.map(|(&(machine, number), bytes)| (machine, number, &bytes[..]))
        })
    }

    /// The files of a day under whose name these bytes lie; `None` where they are not
    /// its day file.
    pub fn files(machine: u32, number: u32, bytes: &[u8]) -> Option<Vec<File>> {
        let machine = u8::try_from(machine).ok()?;
        dayfile::read(machine, number, bytes)
    }

    pub fn let_go(&mut self, machine: u32, number: u32) -> Result<(), Refusal> {
        match self.days.remove(&(machine, number)) {
            Some(_) => Ok(()),
            None => Err(Refusal::NotThere),
        }
    }
}

#[cfg(test)]
mod tests {
    use super::*;

    fn name(number: usize) -> Digest {
        let mut name = [0; 32];
        name[..8].copy_from_slice(&number.to_be_bytes());
        name
    }

    #[test]
    fn an_empty_store() {
        let store = Store::new([0, 3]);
        assert!(store.has_machine(0) && store.has_machine(3));
        assert!(!store.has_machine(1) && !store.has_machine(4));
        assert_eq!(store.read(&name(1)), None);
        assert_eq!(store.read_aside(&name(1)), None);
        assert_eq!(store.highest(0), 0);
        assert!(store.listed.is_empty() && store.days.is_empty());
    }

    #[test]
    fn pieces() {
        let mut store = Store::new([0]);
        store.write(name(1), b"one");
        store.write(name(1), b"other");
        assert_eq!(store.read(&name(1)), Some(&b"other"[..]));
        assert_eq!(store.read(&name(2)), None);
        assert_eq!(store.read_aside(&name(1)), None);
    }

    #[test]
    fn aside_and_back() {
        let mut store = Store::new([0]);
        store.put_aside(name(1));
        store.put_back(name(1));
        store.throw_away(&name(1));
        assert_eq!(store, Store::new([0]));

        store.write(name(1), b"one");
        store.put_back(name(1));
        assert_eq!(store.read(&name(1)), Some(&b"one"[..]));
        store.put_aside(name(1));
        assert_eq!(store.read(&name(1)), None);
        assert_eq!(store.read_aside(&name(1)), Some(&b"one"[..]));
        // With none in its place, what lies aside stays.
        store.put_aside(name(1));
        assert_eq!(store.read_aside(&name(1)), Some(&b"one"[..]));

        // What lay at the other end before is gone.
        store.write(name(1), b"two");
        store.put_aside(name(1));
        assert_eq!(store.read_aside(&name(1)), Some(&b"two"[..]));
        store.write(name(1), b"three");
        store.put_back(name(1));
        assert_eq!(store.read(&name(1)), Some(&b"two"[..]));
        assert_eq!(store.read_aside(&name(1)), None);

        store.put_aside(name(1));
        store.write(name(1), b"four");
        store.throw_away(&name(1));
        assert_eq!(store.read(&name(1)), Some(&b"four"[..]));
        assert_eq!(store.read_aside(&name(1)), None);
    }

    /// A name in the lists of two machines counts twice.
    #[test]
    fn full_lists() {
        let mut store = Store::new([0, 1]);
        for at in 0..MAX_LISTED / 2 {
            assert_eq!(store.list(0, name(at)), Ok(()));
            assert_eq!(store.list(1, name(at)), Ok(()));
            assert_eq!(store.list(0, name(at)), Ok(()));
        }
        assert_eq!(store.listed.len(), MAX_LISTED);
        assert_eq!(store.list(0, name(MAX_LISTED)), Err(Refusal::ListsFull));
        assert_eq!(store.list(2, name(0)), Err(Refusal::ListsFull));
        assert_eq!(store.list(0, name(0)), Ok(()));
        assert_eq!(store.list(1, name(MAX_LISTED / 2 - 1)), Ok(()));
        assert_eq!(store.listed.len(), MAX_LISTED);
    }

    /// The sweeper's list counts, too.
    #[test]
    fn full_with_the_sweeper() {
        let mut store = Store::new([0]);
        for at in 0..MAX_LISTED / 2 {
            assert_eq!(store.list(0, name(at)), Ok(()));
            assert_eq!(store.list_for_sweeper(name(at)), Ok(()));
            assert_eq!(store.list_for_sweeper(name(at)), Ok(()));
        }
        let more = name(MAX_LISTED);
        assert_eq!(store.list(0, more), Err(Refusal::ListsFull));
        assert_eq!(store.list(1, name(0)), Err(Refusal::ListsFull));
        assert_eq!(store.list_for_sweeper(more), Err(Refusal::ListsFull));
        assert_eq!(store.list(0, name(0)), Ok(()));
        assert_eq!(store.list_for_sweeper(name(0)), Ok(()));
        assert_eq!(store.all_listed().count(), MAX_LISTED);
    }

    #[test]
    fn the_very_bytes() {
        let name = sha256(b"a");
        let mut store = Store::new([0]);
        assert!(!store.in_place(&name) && !store.is_aside(&name));
        store.write(name, b"a");
        assert!(store.in_place(&name) && !store.is_aside(&name));
        store.put_aside(name);
        assert!(!store.in_place(&name) && store.is_aside(&name));
        for other in [&b""[..], b"b", b"aa"] {
            store.write(name, other);
            assert!(!store.in_place(&name));
            store.put_aside(name);
            assert!(!store.is_aside(&name));
        }
    }

    #[test]
    fn the_list_of_machines() {
        let mut store = Store::new([0, 3]);
        assert_eq!(store.take_off_list(1), Err(Refusal::NotThere));
        assert_eq!(store.take_off_list(3), Ok(()));
        assert_eq!(store.take_off_list(3), Err(Refusal::NotThere));
        assert!(store.has_machine(0) && !store.has_machine(3));
    }

    /// Whether a machine is on the list makes no difference.
    #[test]
    fn days_are_found_by_their_numbers() {
        let mut store = Store::new([0]);
        for day in [(0, 0), (0, 1), (0, 3), (0, 4), (2, 7), (63, 1), (64, 1)] {
            store.name_day(day.0, day.1, &[]).expect("no day has it");
        }
        for (machine, highest) in [(0, 3), (2, u32::MAX), (63, 1), (64, 1)] {
            store.set_highest(machine, highest);
        }
        let days = store
            .each_day()
            .map(|(machine, number, _)| (machine, number));
        assert!(days.eq([(0, 1), (0, 3), (2, 7), (63, 1)]));
    }

    #[test]
    fn days() {
        let mut store = Store::new([0, 1]);
        assert_eq!(store.let_go(0, 1), Err(Refusal::NotThere));
        assert_eq!(store.name_day(0, 1, b"of the form or not"), Ok(()));
        assert_eq!(store.name_day(0, 1, &[]), Err(Refusal::NameTaken));
        assert_eq!(store.days[&(0, 1)], b"of the form or not");
        assert_eq!(store.name_day(1, 1, &[]), Ok(()));
        assert_eq!(store.let_go(0, 2), Err(Refusal::NotThere));
        assert_eq!(store.let_go(0, 1), Ok(()));
        assert_eq!(store.let_go(0, 1), Err(Refusal::NotThere));
        assert_eq!(store.let_go(1, 1), Ok(()));
    }

    #[test]
    fn highest_numbers() {
        let mut store = Store::new([0, 1]);
        store.set_highest(1, 7);
        assert_eq!(store.highest(0), 0);
        assert_eq!(store.highest(1), 7);
    }
}
