//! Why a program did not do what it was asked: the line that it writes then.

use std::fmt;
use std::io::{self, ErrorKind};
use std::os::unix::ffi::OsStrExt;
use std::path::Path;

#[derive(Clone, Debug, PartialEq, Eq)]
pub struct Fault {
    /// The number of the rule that forbids it, if one does.
    number: Option<u8>,
    /// The machine, day, path, piece or file that it concerns.
    what: String,
    why: String,
    /// What to do now.
    instead: String,
}

impl Fault {
    /// One that breaks no rule.
    pub fn new(
        what: impl Into<String>,
        why: impl Into<String>,
        instead: impl Into<String>,
    ) -> Self {
        Fault {
            number: None,
            what: what.into(),
            why: why.into(),
            instead: instead.into(),
        }
    }

    /// The same fault, of a rule.
    pub fn by(self, number: u8) -> Self {
        Fault {
            number: Some(number),
            ..self
        }
    }

    /// What the system says about a file. `done` is what it was asked, as `read`.
    pub fn of_file(path: &Path, done: &str, error: &io::Error) -> Self {
        let why = format!("it cannot be {done}: {error}");
        Fault::new(shown_path(path), why, advice(error))
    }
}

impl fmt::Display for Fault {
    fn fmt(&self, f: &mut fmt::Formatter) -> fmt::Result {
        if let Some(number) = self.number {
            write!(f, "refused by {number}: ")?;
        }
        write!(f, "{}: {}; {}", self.what, self.why, self.instead)
    }
}

fn advice(error: &io::Error) -> &'static str {
    match error.kind() {
        ErrorKind::StorageFull | ErrorKind::QuotaExceeded => {
            "make room on the disk, and call it again"
        }
        ErrorKind::PermissionDenied | ErrorKind::ReadOnlyFilesystem => {
            "see to it that you may read and write there, and call it again"
        }
        ErrorKind::OutOfMemory => "let other programs end, and call it again",
        ErrorKind::NotFound => "see whether it has another name, and call it again",
        ErrorKind::AlreadyExists
        | ErrorKind::IsADirectory
        | ErrorKind::NotADirectory
        | ErrorKind::InvalidInput => "name another one, and call it again",
        _ => "see what the matter is with the disk, and call it again",
    }
}

/// Bytes in one line of printable ASCII.
pub fn shown(bytes: &[u8]) -> String {
    let mut shown = String::new();
    for &byte in bytes {
        match byte {
            b' '..=b'~' => shown.push(char::from(byte)),
            _ => shown += &format!("\\x{byte:02x}"),
        }
    }
    shown
}

pub fn shown_path(path: &Path) -> String {
    shown(path.as_os_str().as_bytes())
}

/// How a day is called.
pub fn shown_day(machine: u8, number: u32) -> String {
    format!("day {number} of machine {machine}")
}

#[cfg(test)]
mod tests {
    use super::*;

    #[test]
    fn lines() {
        let fault = Fault::new("list", "it is empty", "fill it");
        assert_eq!(fault.to_string(), "list: it is empty; fill it");
        let fault = fault.by(3);
        assert_eq!(
            fault.to_string(),
            "refused by 3: list: it is empty; fill it"
        );
    }

    #[test]
    fn bytes_are_shown() {
        assert_eq!(shown(b"a b~"), "a b~");
        assert_eq!(shown("\nä\x7f".as_bytes()), "\\x0a\\xc3\\xa4\\x7f");
    }
}
