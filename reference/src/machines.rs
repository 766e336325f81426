//! The machines and the days that they make, as `docs/STORE.md` has them.

use crate::cutting::{self, MOST};
use crate::dayfile::{self, File, MAX_FILES, MAX_PATH};
use crate::refusal::Refusal;
use crate::sha256::{sha256, Digest};
use crate::store::Store;
use crate::variant::Variant;
use std::collections::btree_map::{BTreeMap, Entry};

/// A store, and what the machines on its list make.
#[derive(Clone, Debug, PartialEq, Eq)]
pub struct Machines {
    pub store: Store,
    /// The day of each machine that makes one.
    pub making: BTreeMap<u32, Making>,
    /// A wrong rule that they play by.
    pub variant: Option<Variant>,
}

/// A day that a machine makes.
#[derive(Clone, Debug, Default, PartialEq, Eq)]
pub struct Making {
    /// The files that were added, in their order.
    pub files: Vec<File>,
    /// The day's number, once it is raised.
    pub number: Option<u32>,
}

impl Making {
    /// The names of the pieces that were seen to, in their order.
    pub fn pieces(&self) -> impl Iterator<Item = &Digest> + Clone {
        self.files.iter().flat_map(|file| &file.pieces)
    }

    /// The day takes one file more, of this path.
    fn check_takes(&self, path: &[u8]) -> Result<(), Refusal> {
        if self.files.len() >= MAX_FILES {
            return Err(Refusal::TooManyFiles);
        }
        if self.files.last().is_some_and(|file| file.path[..] >= *path) {
            return Err(Refusal::PathNotAbove);
        }
        self.check_not_raised()
    }

    fn check_not_raised(&self) -> Result<(), Refusal> {
        match self.number {
            Some(_) => Err(Refusal::NumberRaised),
            None => Ok(()),
        }
    }
}

/// What was done for a piece that a machine saw to.
#[derive(Clone, Copy, Debug, PartialEq, Eq)]
pub enum Seen {
    Found(Digest),
    Written(Digest),
}

impl Seen {
    /// The piece's name.
    pub fn name(self) -> Digest {
        match self {
            Seen::Found(name) | Seen::Written(name) => name,
        }
    }
}

impl Machines {
    pub fn new(store: Store) -> Self {
        Machines {
            store,
            making: BTreeMap::new(),
            variant: None,
        }
    }

    pub fn begin(&mut self, machine: u32) -> Result<(), Refusal> {
        self.check_on_list(machine)?;
        match self.making.entry(machine) {
            Entry::Occupied(_) => Err(Refusal::AlreadyMakesDay),
            Entry::Vacant(entry) => {
                entry.insert(Making::default());
                Ok(())
            }
        }
    }

    /// Adds a file to the day that the machine makes. The answer is what was done for
    /// each of its pieces. Where it is refused, names may have been listed for it.
    pub fn add(&mut self, machine: u32, path: &[u8], file: &[u8]) -> Result<Vec<Seen>, Refusal> {
        let pieces = cutting::pieces(file).ok_or(Refusal::FileTooLong)?;
        if path.is_empty() || path.len() > MAX_PATH {
            return Err(Refusal::NoPath);
        }
        self.add_pieces(machine, path, &pieces)
    }

    /// The same for a file that is one piece, whose path is its place in the day.
    pub fn see(&mut self, machine: u32, piece: &[u8]) -> Result<Seen, Refusal> {
        if piece.is_empty() {
            return Err(Refusal::PieceEmpty);
        }
        if piece.len() > MOST {
            return Err(Refusal::PieceTooLong);
        }
        let before = self.making.get(&machine).map_or(0, |day| day.files.len());
        let path = format!("{:04}", before + 1);
        let seen = self.add_pieces(machine, path.as_bytes(), &[piece])?;
        Ok(seen[0])
    }

    fn add_pieces(
        &mut self,
        machine: u32,
        path: &[u8],
        pieces: &[&[u8]],
    ) -> Result<Vec<Seen>, Refusal> {
        self.check_on_list(machine)?;
        let day = self.making.get_mut(&machine).ok_or(Refusal::MakesNoDay)?;
        day.check_takes(path)?;
        let names: Vec<Digest> = pieces.iter().map(|piece| sha256(piece)).collect();
        // All names are listed before the first piece is written.
        for (&name, piece) in names.iter().zip(pieces) {
            if !finds(&self.store, self.variant, name, piece) {
                self.store.list(machine, name)?;
            }
        }
        let mut seen = Vec::new();
        for (&name, piece) in names.iter().zip(pieces) {
            seen.push(see_to(&mut self.store, self.variant, machine, name, piece)?);
        }
        let length: usize = pieces.iter().map(|piece| piece.len()).sum();
        day.files.push(File {
            path: path.to_vec(),
            length: length as u32,
            pieces: names,
        });
        Ok(seen)
    }

    /// The answer is the number of the day.
    pub fn raise(&mut self, machine: u32) -> Result<u32, Refusal> {
        self.check_on_list(machine)?;
        let day = self.making.get_mut(&machine).ok_or(Refusal::MakesNoDay)?;
        day.check_not_raised()?;
        let highest = self.store.highest(machine);
        let number = highest.checked_add(1).ok_or(Refusal::LastNumber)?;
        self.store.set_highest(machine, number);
        day.number = Some(number);
        Ok(number)
    }

    /// The answer is the number of the day.
    pub fn name(&mut self, machine: u32) -> Result<u32, Refusal> {
        self.check_on_list(machine)?;
        let day = self.making.get(&machine).ok_or(Refusal::MakesNoDay)?;
        let number = day.number.ok_or(Refusal::NumberNotRaised)?;
        // No machine above 63 is on the list.
        let bytes = dayfile::write(machine as u8, number, &day.files);
        self.store.name_day(machine, number, &bytes)?;
        self.making.remove(&machine);
        Ok(number)
    }

    pub fn break_off(&mut self, machine: u32) -> Result<(), Refusal> {
        self.check_on_list(machine)?;
        match self.making.remove(&machine) {
            Some(_) => Ok(()),
            None => Err(Refusal::MakesNoDay),
        }
    }

    /// Takes the machine off the list. A day that it makes is never finished.
    pub fn part(&mut self, machine: u32) -> Result<(), Refusal> {
        self.store.take_off_list(machine)?;
        self.making.remove(&machine);
        Ok(())
    }

    fn check_on_list(&self, machine: u32) -> Result<(), Refusal> {
        if self.store.has_machine(machine) {
            Ok(())
        } else {
            Err(Refusal::NotThere)
        }
    }
}

/// Only the very bytes of the piece, in its place, are found: what lies aside may be
/// thrown away before the day has its name.
fn finds(store: &Store, variant: Option<Variant>, name: Digest, piece: &[u8]) -> bool {
    let finds_aside = variant == Some(Variant::AsideFound);
    store.read(&name) == Some(piece) || finds_aside && store.read_aside(&name) == Some(piece)
}

/// The name is listed first, where it is not listed yet.
fn see_to(
    store: &mut Store,
    variant: Option<Variant>,
    machine: u32,
    name: Digest,
    piece: &[u8],
) -> Result<Seen, Refusal> {
    if finds(store, variant, name, piece) {
        return Ok(Seen::Found(name));
    }
    store.list(machine, name)?;
    store.write(name, piece);
    Ok(Seen::Written(name))
}

#[cfg(test)]
mod tests {
    use super::*;
    use crate::cutting::MAX_FILE;
    use crate::store::MAX_LISTED;

    /// The pieces of a day in the store, in the order of its files.
    #[track_caller]
    fn pieces(store: &Store, machine: u32, number: u32) -> Vec<Digest> {
        let bytes = &store.days[&(machine, number)];
        let files = Store::files(machine, number, bytes).expect("it is of the form");
        files.into_iter().flat_map(|file| file.pieces).collect()
    }

    fn machines() -> Machines {
        Machines::new(Store::new([0, 1]))
    }

    /// Refuses the step, which must change nothing.
    #[track_caller]
    fn refused<T: std::fmt::Debug + PartialEq>(
        machines: &mut Machines,
        refusal: Refusal,
        step: impl FnOnce(&mut Machines) -> Result<T, Refusal>,
    ) {
        let before = machines.clone();
        assert_eq!(step(machines), Err(refusal));
        assert_eq!(*machines, before);
    }

    #[test]
    fn a_day() {
        let (a, b) = (sha256(b"a"), sha256(b"b"));
        let mut machines = machines();
        assert_eq!(machines.begin(0), Ok(()));
        assert_eq!(machines.see(0, b"a"), Ok(Seen::Written(a)));
        assert_eq!(machines.see(0, b"b"), Ok(Seen::Written(b)));
        assert_eq!(machines.see(0, b"a"), Ok(Seen::Found(a)));
        assert_eq!(machines.raise(0), Ok(1));
        assert_eq!(machines.name(0), Ok(1));
        assert_eq!(pieces(&machines.store, 0, 1), [a, b, a]);
        assert_eq!(machines.store.listed.len(), 2);
        assert_eq!(machines.store.read(&a), Some(&b"a"[..]));
        assert!(machines.making.is_empty());
    }

    /// A piece that one machine wrote is found by another, whose list it is not in.
    #[test]
    fn a_shared_piece() {
        let mut machines = machines();
        machines.begin(0).expect("it makes none");
        machines.begin(1).expect("it makes none");
        machines.see(0, b"a").expect("it makes a day");
        assert_eq!(machines.see(1, b"a"), Ok(Seen::Found(sha256(b"a"))));
        assert!(machines.store.listed.iter().eq(&[(0, sha256(b"a"))]));
    }

    #[test]
    fn not_on_the_list() {
        let mut machines = machines();
        for machine in [2, 63, 64, u32::MAX] {
            refused(&mut machines, Refusal::NotThere, |all| all.begin(machine));
            refused(&mut machines, Refusal::NotThere, |all| {
                all.see(machine, b"a")
            });
            refused(&mut machines, Refusal::NotThere, |all| {
                all.add(machine, b"a", b"")
            });
            refused(&mut machines, Refusal::NotThere, |all| all.raise(machine));
            refused(&mut machines, Refusal::NotThere, |all| all.name(machine));
            refused(&mut machines, Refusal::NotThere, |all| {
                all.break_off(machine)
            });
        }
    }

    #[test]
    fn parting() {
        let mut machines = machines();
        machines.begin(1).expect("it makes none");
        machines.see(1, b"a").expect("it makes a day");
        machines.raise(1).expect("it has not raised");
        machines.name(1).expect("it has raised");
        machines.begin(1).expect("it makes none");
        refused(&mut machines, Refusal::NotThere, |all| all.part(2));
        assert_eq!(machines.part(1), Ok(()));
        assert!(machines.making.is_empty());
        refused(&mut machines, Refusal::NotThere, |all| all.part(1));
        refused(&mut machines, Refusal::NotThere, |all| all.begin(1));
        refused(&mut machines, Refusal::NotThere, |all| all.see(1, b"a"));
        refused(&mut machines, Refusal::NotThere, |all| all.raise(1));
        refused(&mut machines, Refusal::NotThere, |all| all.name(1));
        refused(&mut machines, Refusal::NotThere, |all| all.break_off(1));
        // What it has made stays.
        assert_eq!(pieces(&machines.store, 1, 1), [sha256(b"a")]);
        assert_eq!(machines.store.highest(1), 1);
        assert_eq!(machines.store.listed.len(), 1);
        assert_eq!(machines.store.let_go(1, 1), Ok(()));
        assert_eq!(machines.begin(0), Ok(()));
    }

    #[test]
    fn no_day() {
        let mut machines = machines();
        machines.begin(1).expect("it makes none");
        refused(&mut machines, Refusal::MakesNoDay, |all| all.see(0, b"a"));
        refused(&mut machines, Refusal::MakesNoDay, |all| {
            all.add(0, b"a", b"")
        });
        refused(&mut machines, Refusal::MakesNoDay, |all| all.raise(0));
        refused(&mut machines, Refusal::MakesNoDay, |all| all.name(0));
        refused(&mut machines, Refusal::MakesNoDay, |all| all.break_off(0));
    }

    #[test]
    fn order_of_a_day() {
        let mut machines = machines();
        machines.begin(0).expect("it makes none");
        refused(&mut machines, Refusal::AlreadyMakesDay, |all| all.begin(0));
        refused(&mut machines, Refusal::NumberNotRaised, |all| all.name(0));
        machines.raise(0).expect("it has not raised");
        refused(&mut machines, Refusal::AlreadyMakesDay, |all| all.begin(0));
        refused(&mut machines, Refusal::NumberRaised, |all| all.see(0, b"a"));
        refused(&mut machines, Refusal::NumberRaised, |all| {
            all.add(0, b"a", b"")
        });
        refused(&mut machines, Refusal::NumberRaised, |all| all.raise(0));
        machines.break_off(0).expect("it makes a day");
        assert!(machines.making.is_empty());
    }

    /// A number that was raised is not raised again.
    #[test]
    fn numbers() {
        let mut machines = machines();
        for number in 1..=3 {
            machines.begin(0).expect("it makes none");
            assert_eq!(machines.raise(0), Ok(number));
            machines.break_off(0).expect("it makes a day");
        }
        machines.begin(0).expect("it makes none");
        assert_eq!(machines.raise(0), Ok(4));
        assert_eq!(machines.name(0), Ok(4));
        machines.store.let_go(0, 4).expect("the day is there");
        machines.begin(0).expect("it makes none");
        assert_eq!(machines.raise(0), Ok(5));
        machines.begin(1).expect("it makes none");
        assert_eq!(machines.raise(1), Ok(1));
    }

    #[test]
    fn long_pieces() {
        let mut machines = machines();
        let longer = vec![0; MOST + 1];
        // This comes before all else.
        refused(&mut machines, Refusal::PieceTooLong, |all| {
            all.see(2, &longer)
        });
        refused(&mut machines, Refusal::PieceTooLong, |all| {
            all.see(0, &longer)
        });
        machines.begin(0).expect("it makes none");
        refused(&mut machines, Refusal::PieceTooLong, |all| {
            all.see(0, &longer)
        });
        let name = sha256(&longer[1..]);
        assert_eq!(machines.see(0, &longer[1..]), Ok(Seen::Written(name)));
        machines.raise(0).expect("it has not raised");
        refused(&mut machines, Refusal::PieceTooLong, |all| {
            all.see(0, &longer)
        });
    }

    /// What a day lists of its files.
    #[test]
    fn files() {
        let zeros = vec![0; 5_000];
        let name = sha256(&zeros[..2_048]);
        let last = sha256(&zeros[..904]);
        let mut machines = machines();
        machines.begin(1).expect("it makes none");
        assert_eq!(machines.add(1, b"\0", b""), Ok(vec![]));
        assert_eq!(machines.see(1, b"a"), Ok(Seen::Written(sha256(b"a"))));
        let seen = [Seen::Written(name), Seen::Found(name), Seen::Written(last)];
        assert_eq!(machines.add(1, b"1", &zeros), Ok(seen.to_vec()));
        let path = [b'z'; MAX_PATH];
        let seen = vec![Seen::Found(sha256(b"a"))];
        assert_eq!(machines.add(1, &path, b"a"), Ok(seen));
        machines.raise(1).expect("it has not raised");
        machines.name(1).expect("it has raised");
        let file = |path: &[u8], length: u32, pieces: &[Digest]| File {
            path: path.to_vec(),
            length,
            pieces: pieces.to_vec(),
        };
        let files = [
            file(b"\0", 0, &[]),
            file(b"0002", 1, &[sha256(b"a")]),
            file(b"1", 5_000, &[name, name, last]),
            file(&path, 1, &[sha256(b"a")]),
        ];
        let bytes = &machines.store.days[&(1, 1)];
        assert_eq!(*bytes, dayfile::write(1, 1, &files));
    }

    #[test]
    fn paths() {
        let mut machines = machines();
        let longer = [b'a'; MAX_PATH + 1];
        for path in [&b""[..], &longer] {
            // This comes before the machine is looked at.
            for machine in [0, 2] {
                refused(&mut machines, Refusal::NoPath, |all| {
                    all.add(machine, path, b"a")
                });
            }
        }
        machines.begin(0).expect("it makes none");
        refused(&mut machines, Refusal::NoPath, |all| {
            all.add(0, &longer, b"a")
        });
        assert_eq!(machines.add(0, b"0002", b""), Ok(vec![]));
        for path in [&b"\0"[..], b"0", b"0001", b"0001~", b"0002"] {
            refused(&mut machines, Refusal::PathNotAbove, |all| {
                all.add(0, path, b"a")
            });
        }
        // The place of the next file is 2.
        refused(&mut machines, Refusal::PathNotAbove, |all| all.see(0, b"a"));
        assert_eq!(machines.add(0, b"0002\0", b""), Ok(vec![]));
        assert_eq!(
            machines.see(0, b"a"),
            Ok(Seen::Written(sha256(b"a"))),
            "its path is 0003"
        );
        machines.raise(0).expect("it has not raised");
        // The lower number wins.
        refused(&mut machines, Refusal::PathNotAbove, |all| {
            all.add(0, b"0003", b"a")
        });
        refused(&mut machines, Refusal::NumberRaised, |all| {
            all.add(0, b"0004", b"a")
        });
    }

    #[test]
    fn many_files() {
        let mut machines = machines();
        machines.begin(0).expect("it makes none");
        for _ in 0..MAX_FILES {
            machines.see(0, b"a").expect("it makes a day");
        }
        assert_eq!(machines.making[&0].files[MAX_FILES - 1].path, b"4096");
        refused(&mut machines, Refusal::TooManyFiles, |all| all.see(0, b"a"));
        // Whether its path is above or not, and its number raised or not.
        for raise in [false, true] {
            if raise {
                machines.raise(0).expect("it has not raised");
            }
            for path in [b"0", b"a"] {
                refused(&mut machines, Refusal::TooManyFiles, |all| {
                    all.add(0, path, b"")
                });
            }
        }
    }

    #[test]
    fn long_files() {
        let mut machines = machines();
        let longer = vec![0; MAX_FILE + 1];
        // This comes before all else.
        for (machine, path) in [(0, &b""[..]), (2, b"a")] {
            refused(&mut machines, Refusal::FileTooLong, |all| {
                all.add(machine, path, &longer)
            });
        }
        machines.begin(0).expect("it makes none");
        refused(&mut machines, Refusal::FileTooLong, |all| {
            all.add(0, b"a", &longer)
        });
        let seen = machines.add(0, b"a", &longer[1..]).expect("it has room");
        assert_eq!(seen.len(), 8_192);
        assert_eq!(machines.making[&0].files[0].length, 16_777_216);
    }

    #[test]
    fn empty_pieces() {
        let mut machines = machines();
        for machine in [0, 2] {
            refused(&mut machines, Refusal::PieceEmpty, |all| {
                all.see(machine, b"")
            });
        }
        machines.begin(0).expect("it makes none");
        refused(&mut machines, Refusal::PieceEmpty, |all| all.see(0, b""));
    }

    /// Names that were listed before one cannot be listed stay so; nothing is written,
    /// and the file is in no day.
    #[test]
    fn a_file_that_is_half_listed() {
        let zeros = vec![0; 5_000];
        let (name, last) = (sha256(&zeros[..2_048]), sha256(&zeros[..904]));
        let mut machines = machines();
        machines.begin(0).expect("it makes none");
        machines.see(0, b"a").expect("it makes a day");
        for at in 0.. {
            if machines.store.listed.len() + 1 == MAX_LISTED {
                break;
            }
            let mut name = [0; 32];
            name[..4].copy_from_slice(&u32::to_be_bytes(at));
            machines.store.listed.insert((1, name));
        }
        let before = machines.clone();
        let refused = Err(Refusal::ListsFull);
        assert_eq!(machines.add(0, b"b", &zeros), refused);
        assert_eq!(machines.making, before.making);
        assert_eq!(machines.store.place, before.store.place);
        assert!(machines.store.listed.contains(&(0, name)));
        assert!(!machines.store.listed.contains(&(0, last)));
        // It is refused again, and then nothing changes any more.
        let before = machines.clone();
        assert_eq!(machines.add(0, b"b", &zeros), refused);
        assert_eq!(machines, before);
        // Its path is still free, and the day goes on.
        let seen = vec![Seen::Written(name)];
        assert_eq!(machines.add(0, b"b", &zeros[..2_048]), Ok(seen));
    }

    #[test]
    fn pieces_aside() {
        let name = sha256(b"a");
        let mut machines = machines();
        machines.begin(0).expect("it makes none");
        machines.see(0, b"a").expect("it makes a day");
        machines.store.put_aside(name);
        assert_eq!(machines.see(0, b"a"), Ok(Seen::Written(name)));
        assert_eq!(machines.store.read(&name), Some(&b"a"[..]));
        assert_eq!(machines.store.read_aside(&name), Some(&b"a"[..]));
        assert_eq!(machines.see(0, b"a"), Ok(Seen::Found(name)));
        assert!(machines.making[&0].pieces().eq(&[name; 3]));
        assert_eq!(machines.store.listed.len(), 1);
    }

    #[test]
    fn other_bytes_in_the_place() {
        let name = sha256(b"a");
        let mut machines = machines();
        machines.begin(0).expect("it makes none");
        for other in [&b""[..], b"b", b"ab"] {
            machines.store.write(name, other);
            assert_eq!(machines.see(0, b"a"), Ok(Seen::Written(name)));
            assert_eq!(machines.store.read(&name), Some(&b"a"[..]));
        }
    }

    #[test]
    fn full_lists() {
        let mut machines = machines();
        machines.begin(0).expect("it makes none");
        machines.begin(1).expect("it makes none");
        machines.see(0, b"a").expect("it makes a day");
        machines.see(0, b"b").expect("it makes a day");
        machines.store.put_aside(sha256(b"b"));
        for at in 0.. {
            if machines.store.listed.len() == MAX_LISTED {
                break;
            }
            let mut name = [0; 32];
            name[..4].copy_from_slice(&u32::to_be_bytes(at));
            machines.store.listed.insert((at % 64, name));
        }

        refused(&mut machines, Refusal::ListsFull, |all| all.see(0, b"c"));
        // The name is in the list of another machine alone.
        refused(&mut machines, Refusal::ListsFull, |all| all.see(1, b"b"));
        // What is found needs no list, and a name that is in it needs no room.
        assert_eq!(machines.see(1, b"a"), Ok(Seen::Found(sha256(b"a"))));
        assert_eq!(machines.see(0, b"b"), Ok(Seen::Written(sha256(b"b"))));
        assert_eq!(machines.see(1, b"b"), Ok(Seen::Found(sha256(b"b"))));
        assert_eq!(machines.store.listed.len(), MAX_LISTED);
    }

    #[test]
    fn the_last_number() {
        let mut machines = machines();
        machines.store.set_highest(0, u32::MAX - 1);
        machines.begin(0).expect("it makes none");
        assert_eq!(machines.raise(0), Ok(u32::MAX));
        assert_eq!(machines.name(0), Ok(u32::MAX));
        machines.begin(0).expect("it makes none");
        refused(&mut machines, Refusal::LastNumber, |all| all.raise(0));
        machines.see(0, b"a").expect("it has not raised");
        machines.break_off(0).expect("it makes a day");
        assert_eq!(machines.store.highest(0), u32::MAX);
    }

    /// Such a store is not one that machines have made.
    #[test]
    fn a_name_that_is_taken() {
        let mut machines = machines();
        machines.store.name_day(0, 1, &[]).expect("no day has it");
        machines.begin(0).expect("it makes none");
        assert_eq!(machines.raise(0), Ok(1));
        refused(&mut machines, Refusal::NameTaken, |all| all.name(0));
    }
}
