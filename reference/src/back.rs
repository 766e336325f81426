//! Having a file of a day back, as `docs/DAYS.md` has it.

use crate::refusal::Refusal;
use crate::sha256::{sha256, Digest};
use crate::store::Store;

/// The bytes of the file of this path in a day.
pub fn back(store: &Store, machine: u32, number: u32, path: &[u8]) -> Result<Vec<u8>, Refusal> {
    let day = store.days.get(&(machine, number));
    let day = day.ok_or(Refusal::NotThere)?;
    let files = Store::files(machine, number, day).ok_or(Refusal::DayDamaged)?;
    let file = files.iter().find(|file| file.path == path);
    let file = file.ok_or(Refusal::NotThere)?;
    let mut bytes = Vec::new();
    for name in &file.pieces {
        bytes.extend_from_slice(piece(store, name).ok_or(Refusal::DayDamaged)?);
    }
    if bytes.len() == file.length as usize {
        Ok(bytes)
    } else {
        Err(Refusal::DayDamaged)
    }
}

/// A piece as it is in its place, or else aside. Nobody moves it between the two looks
/// here, so there is no third one.
fn piece<'a>(store: &'a Store, name: &Digest) -> Option<&'a [u8]> {
    let copies = [store.read(name), store.read_aside(name)];
    let mut copies = copies.into_iter().flatten();
    copies.find(|bytes| sha256(bytes) == *name)
}

#[cfg(test)]
mod tests {
    use super::*;
    use crate::dayfile::{self, File};
    use crate::machines::Machines;

    /// Day 1 of machine 0, with these files.
    fn with_day(files: &[(&[u8], &[u8])]) -> Store {
        let mut machines = Machines::new(Store::new([0, 1]));
        machines.begin(0).expect("it makes none");
        for (path, bytes) in files {
            machines.add(0, path, bytes).expect("its path is above");
        }
        machines.raise(0).expect("it has not raised");
        machines.name(0).expect("it has raised");
        machines.store
    }

    #[test]
    fn files() {
        let zeros = vec![0; 5_000];
        let mut store = with_day(&[(b"a", b"abc"), (b"empty", b""), (b"zeros", &zeros)]);
        assert_eq!(back(&store, 0, 1, b"a"), Ok(b"abc".to_vec()));
        assert_eq!(back(&store, 0, 1, b"empty"), Ok(vec![]));
        assert_eq!(back(&store, 0, 1, b"zeros"), Ok(zeros));
        for path in [&b""[..], b"b", b"aa", b"zero", b"zeros0", &[b'a'; 300]] {
            assert_eq!(back(&store, 0, 1, path), Err(Refusal::NotThere));
        }
        assert_eq!(back(&store, 0, 2, b"a"), Err(Refusal::NotThere));
        assert_eq!(back(&store, 1, 1, b"a"), Err(Refusal::NotThere));
        assert_eq!(back(&store, 256, 1, b"a"), Err(Refusal::NotThere));
        store.let_go(0, 1).expect("the day is there");
        assert_eq!(back(&store, 0, 1, b"a"), Err(Refusal::NotThere));
    }

    #[test]
    fn the_right_copy() {
        let name = sha256(b"abc");
        let damaged = Err(Refusal::DayDamaged);
        let mut store = with_day(&[(b"a", b"abc")]);
        store.put_aside(name);
        assert_eq!(back(&store, 0, 1, b"a"), Ok(b"abc".to_vec()));
        // Other bytes in the place, and the right ones aside.
        store.write(name, b"abd");
        assert_eq!(back(&store, 0, 1, b"a"), Ok(b"abc".to_vec()));
        store.put_aside(name);
        assert_eq!(back(&store, 0, 1, b"a"), damaged);
        store.write(name, b"abc");
        assert_eq!(back(&store, 0, 1, b"a"), Ok(b"abc".to_vec()));
        store.write(name, b"");
        assert_eq!(back(&store, 0, 1, b"a"), damaged);
        store.throw_away(&name);
        store.place.remove(&name);
        assert_eq!(back(&store, 0, 1, b"a"), damaged);
    }

    /// The file of the day, and what it lists.
    #[test]
    fn damaged_days() {
        let store = with_day(&[(b"a", b"abc")]);
        let day = store.days[&(0, 1)].clone();
        for at in 0..day.len() {
            let mut store = store.clone();
            let mut other = day.clone();
            other[at] ^= 0xff;
            store.days.insert((0, 1), other);
            // Whether it has the path or not.
            for path in [b"a", b"b"] {
                assert_eq!(back(&store, 0, 1, path), Err(Refusal::DayDamaged));
            }
            store.days.insert((0, 1), day[..at].to_vec());
            assert_eq!(back(&store, 0, 1, b"a"), Err(Refusal::DayDamaged));
        }
        // A length that is not that of the pieces.
        for (length, pieces) in [
            (2, vec![sha256(b"abc")]),
            (4, vec![sha256(b"abc")]),
            (3, vec![]),
            (3, vec![sha256(b"abc"); 2]),
        ] {
            let mut store = store.clone();
            let file = File {
                path: b"a".to_vec(),
                length,
                pieces,
            };
            store.days.insert((0, 1), dayfile::write(0, 1, &[file]));
            assert_eq!(back(&store, 0, 1, b"a"), Err(Refusal::DayDamaged));
        }
    }
}
