//! Day files, as `docs/DAYS.md` has them: the string that lies under a day's name.

use crate::cutting::MAX_FILE;
use crate::sha256::{sha256, Digest};

/// The files that a day may have.
pub const MAX_FILES: usize = 4_096;

/// The bytes that a path may have.
pub const MAX_PATH: usize = 255;

/// The pieces that a file of a day may have.
pub const MAX_PIECES: usize = 65_535;

/// The first byte of each day file.
const FIRST: u8 = 68;

/// A file as a day lists it.
#[derive(Clone, Debug, Default, PartialEq, Eq)]
pub struct File {
    pub path: Vec<u8>,
    /// How many bytes it has.
    pub length: u32,
    /// The names of its pieces, in their order.
    pub pieces: Vec<Digest>,
}

/// The day file of this machine and number with these files, which must be such as a
/// day may have: nothing is cut off or left out here.
pub fn write(machine: u8, number: u32, files: &[File]) -> Vec<u8> {
    let mut bytes = vec![FIRST, machine];
    bytes.extend(number.to_be_bytes());
    bytes.extend((files.len() as u16).to_be_bytes());
    for file in files {
        bytes.push(file.path.len() as u8);
        bytes.extend(&file.path);
        bytes.extend(file.length.to_be_bytes());
        bytes.extend((file.pieces.len() as u16).to_be_bytes());
        bytes.extend(file.pieces.iter().flatten());
    }
    bytes.extend(sha256(&bytes));
    bytes
}

/// The files of the day whose day file this string is; `None` where it is none, or
/// that of another day.
pub fn read(machine: u8, number: u32, bytes: &[u8]) -> Option<Vec<File>> {
    let (listed, digest) = bytes.split_last_chunk::<32>()?;
    let mut rest = Rest(listed);
    let its_own = rest.part()? == [FIRST, machine] && rest.part()? == number.to_be_bytes();
    let count = usize::from(u16::from_be_bytes(rest.part()?));
    if !its_own || count > MAX_FILES {
        return None;
    }
    let mut files: Vec<File> = Vec::new();
    for _ in 0..count {
        let file = rest.file()?;
        // No path is at or below the empty one, which no file has.
        let before = files.last().map_or(&b""[..], |file| &file.path);
        if file.path[..] <= *before {
            return None;
        }
        files.push(file);
    }
    (rest.0.is_empty() && sha256(listed) == *digest).then_some(files)
}

/// What is left of a string to be read.
struct Rest<'a>(&'a [u8]);

impl<'a> Rest<'a> {
    /// The next `N` bytes.
    fn part<const N: usize>(&mut self) -> Option<[u8; N]> {
        let (part, rest) = self.0.split_first_chunk()?;
        self.0 = rest;
        Some(*part)
    }

    fn bytes(&mut self, count: usize) -> Option<&'a [u8]> {
        let (bytes, rest) = self.0.split_at_checked(count)?;
        self.0 = rest;
        Some(bytes)
    }

    /// A file, whose length and pieces are such as a file may have.
    fn file(&mut self) -> Option<File> {
        let [length] = self.part()?;
        let path = self.bytes(usize::from(length))?.to_vec();
        let length = u32::from_be_bytes(self.part()?);
        let count = usize::from(u16::from_be_bytes(self.part()?));
        if length as usize > MAX_FILE || length == 0 && count > 0 {
            return None;
        }
        let mut pieces = Vec::new();
        for _ in 0..count {
            pieces.push(self.part()?);
        }
        Some(File {
            path,
            length,
            pieces,
        })
    }
}

#[cfg(test)]
mod tests {
    use super::*;

    fn file(path: &[u8], length: u32, pieces: &[Digest]) -> File {
        File {
            path: path.to_vec(),
            length,
            pieces: pieces.to_vec(),
        }
    }

    /// Some days at the limits of the form, and others.
    fn days() -> Vec<Vec<File>> {
        let names = |count: usize| vec![[7; 32]; count];
        let path = |number: usize| format!("{number:04}").into_bytes();
        vec![
            vec![],
            vec![file(b"a", 0, &[])],
            vec![file(b"\0", 1, &[[1; 32]])],
            vec![file(b"a", 5, &[]), file(b"a\0", 5, &[[1; 32], [2; 32]])],
            vec![
                file(&[0xff; MAX_PATH - 1], 1, &[]),
                file(&[0xff; MAX_PATH], MAX_FILE as u32, &names(300)),
            ],
            vec![file(b"many", 1, &names(MAX_PIECES))],
            (0..MAX_FILES)
                .map(|at| file(&path(at), 1, &names(1)))
                .collect(),
        ]
    }

    /// The string with the right digest at its end in the place of the last 32 bytes.
    fn with_digest(bytes: &[u8]) -> Vec<u8> {
        let listed = &bytes[..bytes.len() - 32];
        [listed, &sha256(listed)].concat()
    }

    #[track_caller]
    fn refused(bytes: &[u8]) {
        assert_eq!(read(3, 258, bytes), None);
        assert_eq!(read(3, 258, &with_digest(bytes)), None);
    }

    #[test]
    fn a_string_by_hand() {
        let files = [
            file(b"a", 0, &[]),
            file(b"bc", 66_051, &[[0xaa; 32], [0xbb; 32]]),
        ];
        let mut bytes = b"D\x03\0\0\x01\x02\0\x02".to_vec();
        bytes.extend(b"\x01a\0\0\0\0\0\0");
        bytes.extend(b"\x02bc\x00\x01\x02\x03\0\x02");
        bytes.extend([[0xaa; 32], [0xbb; 32]].concat());
        bytes.extend(sha256(&bytes));
        assert_eq!(write(3, 258, &files), bytes);
        assert_eq!(read(3, 258, &bytes), Some(files.to_vec()));
        assert_eq!(read(2, 258, &bytes), None);
        assert_eq!(read(3, 257, &bytes), None);
        assert_eq!(read(3, 259, &bytes), None);
    }

    #[test]
    fn what_is_written_is_read() {
        for files in days() {
            for (machine, number) in [(0, 0), (3, 1), (63, u32::MAX), (255, 7)] {
                let bytes = write(machine, number, &files);
                assert_eq!(read(machine, number, &bytes).as_ref(), Some(&files));
            }
        }
    }

    /// Every other byte, every byte less, and bytes more.
    #[test]
    fn one_string_for_each_day() {
        for files in days() {
            let bytes = write(3, 258, &files);
            if bytes.len() > 1_000 {
                continue;
            }
            for at in 0..bytes.len() {
                let mut other = bytes.clone();
                for change in 1..=255 {
                    other[at] = bytes[at] ^ change;
                    assert_eq!(read(3, 258, &other), None);
                    // With the right digest it may be another day, which is written so.
                    let other = with_digest(&other);
                    if let Some(files) = read(3, 258, &other) {
                        assert_eq!(write(3, 258, &files), other);
                    }
                }
                refused(&bytes[..at.max(32)]);
                assert_eq!(read(3, 258, &bytes[..at]), None);
            }
            refused(&[&bytes[..], b"\0"].concat());
            refused(&[&bytes[..bytes.len() - 32], &[0; 33]].concat());
        }
    }

    #[test]
    fn not_of_the_form() {
        for files in [
            // Paths without bytes, equal ones and falling ones.
            vec![file(b"", 0, &[])],
            vec![file(b"a", 0, &[]), file(b"", 0, &[])],
            vec![file(b"a", 0, &[]), file(b"a", 0, &[])],
            vec![file(b"b", 0, &[]), file(b"a", 0, &[])],
            vec![file(b"ab", 0, &[]), file(b"a", 0, &[])],
            vec![file(b"b", 0, &[]), file(b"ab", 0, &[])],
            vec![file(b"a", 0, &[]), file(b"b", 0, &[]), file(b"b", 0, &[])],
            // Files that are too long, and one of no bytes with a piece.
            vec![file(b"a", MAX_FILE as u32 + 1, &[[1; 32]])],
            vec![file(b"a", u32::MAX, &[])],
            vec![file(b"a", 0, &[[1; 32]])],
        ] {
            refused(&write(3, 258, &files));
        }
        let most: Vec<File> = (0..=MAX_FILES)
            .map(|at| file(format!("{at:04}").as_bytes(), 0, &[]))
            .collect();
        assert_eq!(most.len(), MAX_FILES + 1);
        refused(&write(3, 258, &most));
        // As many files as are said, and no others.
        let bytes = write(3, 258, &[file(b"a", 0, &[])]);
        for count in [0, 2, 0x101] {
            let mut other = bytes.clone();
            other[6..8].copy_from_slice(&u16::to_be_bytes(count));
            refused(&other);
        }
    }
}
