//! A store in a folder: what lies where, and how it is read, written and synced.

use super::fault::{shown_path, Fault};
use super::machines::{self, MAX_LIST};
use crate::cutting::MOST;
use crate::sha256::{sha256, Digest};
use std::collections::BTreeSet;
use std::fmt;
use std::fs::{self, File, OpenOptions, TryLockError};
use std::io::{self, ErrorKind, Read, Write};
use std::path::{Path, PathBuf};

/// The highest number of a machine.
pub const MAX_MACHINE: u8 = 63;

/// The folders in that of a store, but for those of days.
const FOLDERS: [&str; 6] = ["p", "a", "i", "m", "d", "t"];

/// The first byte of the file that says what the sweeper does.
const RESTS: u8 = 0;
const WAITS: u8 = 1;
const ENDS: u8 = 2;

/// What the system answers where a file system has no second names of files.
const NO_SECOND_NAMES: [i32; 4] = [1, 31, 38, 95];

/// What it answers where one has no locks.
const NO_LOCKS: [i32; 3] = [37, 38, 95];

/// Who writes.
#[derive(Clone, Copy, Debug, PartialEq, Eq)]
pub enum Writer {
    Machine(u8),
    Sweeper,
}

impl Writer {
    pub fn all() -> impl Iterator<Item = Writer> {
        let machines = (0..=MAX_MACHINE).map(Writer::Machine);
        machines.chain([Writer::Sweeper])
    }

    /// The name of its list.
    fn list(self) -> String {
        match self {
            Writer::Machine(machine) => machine.to_string(),
            Writer::Sweeper => "a".to_owned(),
        }
    }
}

/// The name of what it writes and has not named yet.
impl fmt::Display for Writer {
    fn fmt(&self, f: &mut fmt::Formatter) -> fmt::Result {
        match self {
            Writer::Machine(machine) => write!(f, "{machine}"),
            Writer::Sweeper => f.write_str("s"),
        }
    }
}

/// Where a piece lies.
#[derive(Clone, Copy, Debug, PartialEq, Eq)]
pub enum Where {
    Place,
    Aside,
}

/// What the sweeper does, and what it keeps of that.
#[derive(Clone, Debug, PartialEq, Eq)]
pub enum State {
    Rests,
    /// With the highest number that it noted of each machine.
    Waits(Vec<u32>),
    Ends,
}

pub struct Folder {
    top: PathBuf,
}

impl Folder {
    /// The store in this folder, which must have all that a store has from the
    /// beginning: what lies in a folder that is not there might only be out of reach.
    pub fn open(top: &str) -> Result<Folder, Fault> {
        let folder = Folder::at(top);
        if !folder.top.is_dir() {
            let what = shown_path(&folder.top);
            return Err(Fault::new(what, "it is no folder", "name that of a store"));
        }
        for needed in folder.folders() {
            if !needed.is_dir() {
                let why = "this folder of the store is not there";
                return Err(Fault::new(shown_path(&needed), why, NOT_WHOLE));
            }
        }
        if !folder.has_list_of_machines()? {
            let why = "the store's list of machines is not there";
            return Err(Fault::new(shown_path(&folder.list_path()), why, NOT_WHOLE));
        }
        Ok(folder)
    }

    /// This folder, whatever is in it.
    pub fn at(top: &str) -> Folder {
        Folder { top: top.into() }
    }

    pub fn top(&self) -> &Path {
        &self.top
    }

    /// All folders in it.
    pub fn folders(&self) -> impl Iterator<Item = PathBuf> + '_ {
        let folders = FOLDERS.iter().map(|name| self.top.join(name));
        folders.chain((0..=MAX_MACHINE).map(|machine| self.days(machine)))
    }

    pub fn folder(&self, name: &str) -> PathBuf {
        self.top.join(name)
    }

    fn days(&self, machine: u8) -> PathBuf {
        self.top.join("d").join(machine.to_string())
    }

    // The list of machines.

    fn list_path(&self) -> PathBuf {
        self.top.join("machines")
    }

    pub fn has_list_of_machines(&self) -> Result<bool, Fault> {
        exists(&self.list_path(), &self.top)
    }

    /// The machines on the list.
    pub fn machines(&self) -> Result<BTreeSet<u8>, Fault> {
        let path = self.list_path();
        let list = read(&path, &self.top, MAX_LIST)?.unwrap_or_default();
        machines::read(&list).map_err(|why| {
            let instead = "put it right, as docs/FOLDER.md has it";
            Fault::new(shown_path(&path), why, instead)
        })
    }

    /// Makes the list of machines, whole or not at all.
    pub fn make_list_of_machines(&self, machines: &BTreeSet<u8>) -> Result<(), Fault> {
        let path = self.top.join("t").join("machines");
        write_anew(&path, machines::write(machines).as_bytes())?;
        rename(&path, &self.list_path())?;
        sync(&self.top)
    }

    // Locks, and what is not named yet.

    /// The lock of this writer, which is held as long as the file is open; `None` where
    /// another program has it.
    pub fn lock(&self, writer: Writer) -> Result<Option<File>, Fault> {
        let path = self.top.join("t").join(format!("{writer}.lock"));
        let mut options = OpenOptions::new();
        options.write(true).create(true).truncate(false);
        let file = options.open(&path);
        let file = file.map_err(|error| Fault::of_file(&path, "opened", &error))?;
        match file.try_lock() {
            Ok(()) => Ok(Some(file)),
            Err(TryLockError::WouldBlock) => Ok(None),
            Err(TryLockError::Error(error)) if is_one_of(&error, &NO_LOCKS) => Ok(Some(file)),
            Err(TryLockError::Error(error)) => Err(Fault::of_file(&path, "locked", &error)),
        }
    }

    fn unnamed(&self, writer: Writer) -> PathBuf {
        self.top.join("t").join(writer.to_string())
    }

    /// Removes what a stop of this writer may have left.
    pub fn clear(&self, writer: Writer) -> Result<(), Fault> {
        remove(&self.unnamed(writer)).map(|_| ())
    }

    /// Writes a file which has no name yet but that of its writer.
    fn write_unnamed(&self, writer: Writer, bytes: &[u8]) -> Result<PathBuf, Fault> {
        let path = self.unnamed(writer);
        write_anew(&path, bytes)?;
        Ok(path)
    }

    // Pieces.

    fn piece_folder(&self, place: Where) -> PathBuf {
        self.top.join(match place {
            Where::Place => "p",
            Where::Aside => "a",
        })
    }

    fn piece_path(&self, place: Where, name: &Digest) -> PathBuf {
        self.piece_folder(place).join(digits(name))
    }

    /// What lies there under a piece's name, of that name or not.
    pub fn read_piece(&self, place: Where, name: &Digest) -> Result<Option<Vec<u8>>, Fault> {
        let path = self.piece_path(place, name);
        read(&path, &self.piece_folder(place), MOST)
    }

    /// The very bytes of the piece, if they lie there.
    pub fn piece_in(&self, place: Where, name: &Digest) -> Result<Option<Vec<u8>>, Fault> {
        let bytes = self.read_piece(place, name)?;
        Ok(bytes.filter(|bytes| bytes.len() <= MOST && sha256(bytes) == *name))
    }

    /// The bytes of the piece, wherever they lie.
    pub fn piece(&self, name: &Digest) -> Result<Option<Vec<u8>>, Fault> {
        // It may be put back between the first two looks.
        for place in [Where::Place, Where::Aside, Where::Place] {
            let bytes = self.piece_in(place, name)?;
            if bytes.is_some() {
                return Ok(bytes);
            }
        }
        Ok(None)
    }

    /// Whether anything lies there under the name.
    pub fn lies(&self, place: Where, name: &Digest) -> Result<bool, Fault> {
        exists(&self.piece_path(place, name), &self.piece_folder(place))
    }

    /// Writes a piece, whose name must have been listed.
    pub fn write_piece(&self, writer: Writer, name: &Digest, bytes: &[u8]) -> Result<(), Fault> {
        let unnamed = self.write_unnamed(writer, bytes)?;
        rename(&unnamed, &self.piece_path(Where::Place, name))
    }

    /// Moves what lies there to the other place. The answer is whether there was anything.
    pub fn move_from(&self, place: Where, name: &Digest) -> Result<bool, Fault> {
        let to = match place {
            Where::Place => Where::Aside,
            Where::Aside => Where::Place,
        };
        if !self.lies(place, name)? {
            return Ok(false);
        }
        rename(&self.piece_path(place, name), &self.piece_path(to, name))?;
        Ok(true)
    }

    /// Removes what lies aside. The answer is whether there was anything.
    pub fn throw_away(&self, name: &Digest) -> Result<bool, Fault> {
        remove(&self.piece_path(Where::Aside, name))
    }

    // Lists of names.

    pub fn names_path(&self, writer: Writer) -> PathBuf {
        self.top.join("i").join(writer.list())
    }

    // Numbers.

    fn number_path(&self, machine: u8) -> PathBuf {
        self.top.join("m").join(machine.to_string())
    }

    /// The highest number that the machine ever raised.
    pub fn highest(&self, machine: u8) -> Result<u32, Fault> {
        let path = self.number_path(machine);
        let Some(bytes) = read(&path, &self.folder("m"), 36)? else {
            return Ok(0);
        };
        let number = with_digest(&bytes).and_then(|number| number.try_into().ok());
        number.map(u32::from_be_bytes).ok_or_else(|| {
            let why = "this file, the machine's highest number, is damaged";
            Fault::new(shown_path(&path), why, "docs/FOLDER.md says what to do")
        })
    }

    pub fn set_highest(&self, machine: u8, number: u32) -> Result<(), Fault> {
        let mut bytes = number.to_be_bytes().to_vec();
        bytes.extend(sha256(&bytes));
        let unnamed = self.write_unnamed(Writer::Machine(machine), &bytes)?;
        rename(&unnamed, &self.number_path(machine))?;
        sync(&self.folder("m"))
    }

    // Days.

    fn day_path(&self, machine: u8, number: u32) -> PathBuf {
        self.days(machine).join(number.to_string())
    }

    /// The file of a day, of the form or not.
    pub fn day(&self, machine: u8, number: u32) -> Result<Option<Vec<u8>>, Fault> {
        let path = self.day_path(machine, number);
        read(&path, &self.days(machine), usize::MAX)
    }

    pub fn has_day(&self, machine: u8, number: u32) -> Result<bool, Fault> {
        exists(&self.day_path(machine, number), &self.days(machine))
    }

    /// Names a day. The answer is whether there was none of that name.
    pub fn name_day(&self, machine: u8, number: u32, file: &[u8]) -> Result<bool, Fault> {
        // All pieces of the day are durable under their names before it is.
        sync(&self.folder("p"))?;
        let unnamed = self.write_unnamed(Writer::Machine(machine), file)?;
        let path = self.day_path(machine, number);
        let is_named = match fs::hard_link(&unnamed, &path) {
            Ok(()) => true,
            Err(error) if error.kind() == ErrorKind::AlreadyExists => false,
            Err(error) if is_one_of(&error, &NO_SECOND_NAMES) => {
                let is_free = !self.has_day(machine, number)?;
                if is_free {
                    rename(&unnamed, &path)?;
                }
                is_free
            }
            Err(error) => return Err(Fault::of_file(&path, "made", &error)),
        };
        if is_named {
            sync(&self.days(machine))?;
        }
        remove(&unnamed)?;
        Ok(is_named)
    }

    /// Lets a day go. The answer is whether there was one.
    pub fn let_go(&self, machine: u8, number: u32) -> Result<bool, Fault> {
        let was_there = remove(&self.day_path(machine, number))?;
        if was_there {
            sync(&self.days(machine))?;
        }
        Ok(was_there)
    }

    // The sweeper.

    fn state_path(&self) -> PathBuf {
        self.folder("s")
    }

    pub fn state(&self) -> Result<State, Fault> {
        let path = self.state_path();
        let Some(bytes) = read(&path, &self.top, 1 + 4 * 64 + 32)? else {
            return Ok(State::Rests);
        };
        with_digest(&bytes).and_then(read_state).ok_or_else(|| {
            let why = "this file, which says what the sweeper does, is damaged";
            let instead = "remove it and sweep again; the sweeper rests then";
            Fault::new(shown_path(&path), why, instead)
        })
    }

    pub fn keep_state(&self, state: &State) -> Result<(), Fault> {
        sync(&self.folder("p"))?;
        sync(&self.folder("a"))?;
        if *state == State::Ends {
            // No day that was let go may be back once its pieces are thrown away.
            for machine in 0..=MAX_MACHINE {
                sync(&self.days(machine))?;
            }
        }
        let mut bytes = match state {
            State::Rests => vec![RESTS],
            State::Waits(_) => vec![WAITS],
            State::Ends => vec![ENDS],
        };
        if let State::Waits(noted) = state {
            bytes.extend(noted.iter().flat_map(|number| number.to_be_bytes()));
        }
        bytes.extend(sha256(&bytes));
        let unnamed = self.write_unnamed(Writer::Sweeper, &bytes)?;
        rename(&unnamed, &self.state_path())?;
        sync(&self.top)
    }
}

const NOT_WHOLE: &str = "see whether a disk is missing; a new store is made by 'init'";

fn read_state(bytes: &[u8]) -> Option<State> {
    match bytes {
        [RESTS] => Some(State::Rests),
        [ENDS] => Some(State::Ends),
        [WAITS, noted @ ..] if noted.len() == 4 * (usize::from(MAX_MACHINE) + 1) => {
            let (numbers, _) = noted.as_chunks::<4>();
            Some(State::Waits(
                numbers
                    .iter()
                    .map(|&number| u32::from_be_bytes(number))
                    .collect(),
            ))
        }
        _ => None,
    }
}

/// What stands before the digest at the end, if it is the right one.
fn with_digest(bytes: &[u8]) -> Option<&[u8]> {
    let (rest, digest) = bytes.split_last_chunk::<32>()?;
    (sha256(rest) == *digest).then_some(rest)
}

/// The digits of a name.
pub fn digits(name: &Digest) -> String {
    name.iter().map(|byte| format!("{byte:02x}")).collect()
}

fn is_one_of(error: &io::Error, numbers: &[i32]) -> bool {
    error
        .raw_os_error()
        .is_some_and(|number| numbers.contains(&number))
}

/// The bytes of a file, and one more than `most` where it has more; `None` where it is
/// not there, and the folder that it would be in is.
pub fn read(path: &Path, folder: &Path, most: usize) -> Result<Option<Vec<u8>>, Fault> {
    let failed = |error| Fault::of_file(path, "read", &error);
    let file = match File::open(path) {
        Ok(file) => file,
        Err(error) if error.kind() == ErrorKind::NotFound => {
            check_folder(folder)?;
            return Ok(None);
        }
        Err(error) => return Err(failed(error)),
    };
    read_all(file, most).map(Some).map_err(failed)
}

/// The bytes of an open file, and one more than `most` where it has more.
pub fn read_all(file: File, most: usize) -> io::Result<Vec<u8>> {
    let most = most.saturating_add(1);
    let length = usize::try_from(file.metadata()?.len()).unwrap_or(usize::MAX);
    let mut bytes = Vec::new();
    // A file that has grown since may have more.
    let room = length.min(most).saturating_add(1);
    bytes
        .try_reserve_exact(room)
        .map_err(|_| io::Error::from(ErrorKind::OutOfMemory))?;
    file.take(most as u64).read_to_end(&mut bytes)?;
    Ok(bytes)
}

/// Whether anything has this name.
fn exists(path: &Path, folder: &Path) -> Result<bool, Fault> {
    match fs::symlink_metadata(path) {
        Ok(_) => Ok(true),
        Err(error) if error.kind() == ErrorKind::NotFound => {
            check_folder(folder)?;
            Ok(false)
        }
        Err(error) => Err(Fault::of_file(path, "looked at", &error)),
    }
}

/// Where a folder is not there, what lies in it might only be out of reach.
pub fn check_folder(folder: &Path) -> Result<(), Fault> {
    if folder.is_dir() {
        return Ok(());
    }
    let why = "this folder of the store is not there any more";
    Err(Fault::new(shown_path(folder), why, NOT_WHOLE))
}

/// Makes a file anew, writes it and syncs it.
pub fn write_anew(path: &Path, bytes: &[u8]) -> Result<(), Fault> {
    // What was there may be a second name of a file, which must stay as it is.
    remove(path)?;
    let mut options = OpenOptions::new();
    let file = options.write(true).create_new(true).open(path);
    let mut file = file.map_err(|error| Fault::of_file(path, "made", &error))?;
    let written = file.write_all(bytes).and_then(|()| file.sync_all());
    written.map_err(|error| Fault::of_file(path, "written", &error))
}

pub fn rename(from: &Path, to: &Path) -> Result<(), Fault> {
    fs::rename(from, to).map_err(|error| Fault::of_file(to, "named", &error))
}

/// Removes a file. The answer is whether there was one.
pub fn remove(path: &Path) -> Result<bool, Fault> {
    match fs::remove_file(path) {
        Ok(()) => Ok(true),
        Err(error) if error.kind() == ErrorKind::NotFound => Ok(false),
        Err(error) => Err(Fault::of_file(path, "removed", &error)),
    }
}

/// Makes the names in a folder durable.
pub fn sync(folder: &Path) -> Result<(), Fault> {
    let synced = File::open(folder).and_then(|folder| folder.sync_all());
    synced.map_err(|error| Fault::of_file(folder, "synced", &error))
}

#[cfg(test)]
mod tests {
    use super::*;

    #[test]
    fn what_the_sweeper_does() {
        assert_eq!(read_state(&[RESTS]), Some(State::Rests));
        assert_eq!(read_state(&[ENDS]), Some(State::Ends));
        let noted: Vec<u8> = (0..=255).collect();
        let Some(State::Waits(numbers)) = read_state(&[&[WAITS], &noted[..]].concat()) else {
            panic!("the sweeper waits");
        };
        assert_eq!(
            (numbers.len(), numbers[0], numbers[63]),
            (64, 0x0001_0203, 0xfcfd_feff)
        );
        for other in [
            &[][..],
            &[3],
            &[RESTS, 0],
            &[ENDS, 0],
            &[WAITS],
            &[WAITS; 256],
            &[WAITS; 258],
        ] {
            assert_eq!(read_state(other), None);
        }
    }

    #[test]
    fn digests_at_the_end() {
        let whole = [b"abc", &sha256(b"abc")[..]].concat();
        assert_eq!(with_digest(&whole), Some(&b"abc"[..]));
        assert_eq!(with_digest(&whole[1..]), None);
        assert_eq!(with_digest(&whole[..whole.len() - 1]), None);
        assert_eq!(with_digest(b""), None);
    }
}
