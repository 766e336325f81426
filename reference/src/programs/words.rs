//! The arguments of a program.

use super::fault::{shown, Fault};
use super::folder::MAX_MACHINE;
use super::Command;
use std::env;
use std::ffi::{OsStr, OsString};
use std::os::unix::ffi::OsStrExt;

/// Where the store is, if no option says so.
const VARIABLE: &str = "ZELTUVA_STORE";

#[derive(Clone, Debug, PartialEq, Eq)]
pub enum Asked {
    Help,
    Work(Words),
}

#[derive(Clone, Debug, Default, PartialEq, Eq)]
pub struct Words {
    store: Option<String>,
    pub progress: bool,
    /// What is no option, in order.
    pub words: Vec<String>,
}

impl Words {
    /// The folder of the store.
    pub fn store(&self) -> Result<String, Fault> {
        if let Some(store) = &self.store {
            return Ok(store.clone());
        }
        match env::var_os(VARIABLE) {
            Some(store) if !store.is_empty() => text(&store),
            _ => Err(no_store("no folder is named")),
        }
    }
}

fn no_store(why: &str) -> Fault {
    let instead = format!("name the store's folder by --store FOLDER, or in {VARIABLE}");
    Fault::new("store", why, instead)
}

fn text(argument: &OsStr) -> Result<String, Fault> {
    match argument.to_str() {
        Some(text) => Ok(text.to_owned()),
        None => Err(wrong_word(argument.as_bytes(), "it is not UTF-8")),
    }
}

fn wrong_word(word: &[u8], why: &str) -> Fault {
    Fault::new(
        format!("'{}'", shown(word)),
        why,
        "--help says how it is called",
    )
}

/// What the arguments ask for.
pub fn read(command: Command, arguments: Vec<OsString>) -> Result<Asked, Fault> {
    let options = arguments.iter().take_while(|argument| *argument != "--");
    if options.into_iter().any(|argument| argument == "--help") {
        return Ok(Asked::Help);
    }
    let mut read = Words::default();
    let mut arguments = arguments.iter();
    while let Some(argument) = arguments.next() {
        let argument = text(argument)?;
        if argument == "--" {
            let rest: Result<Vec<String>, Fault> =
                arguments.map(|argument| text(argument)).collect();
            read.words.extend(rest?);
            break;
        } else if argument == "--store" {
            let folder = arguments
                .next()
                .ok_or_else(|| no_store("--store names no folder"))?;
            set_store(&mut read, text(folder)?)?;
        } else if let Some(folder) = argument.strip_prefix("--store=") {
            set_store(&mut read, folder.to_owned())?;
        } else if argument == "--progress" && command.has_progress() {
            read.progress = true;
        } else if argument.starts_with('-') && argument != "-" {
            return Err(wrong_word(argument.as_bytes(), "there is no such option"));
        } else {
            read.words.push(argument);
        }
    }
    if !command.takes(read.words.len()) {
        let why = format!("it cannot be called with {}", read.words.len());
        return Err(Fault::new("words", why, "--help says how it is called"));
    }
    Ok(Asked::Work(read))
}

fn set_store(read: &mut Words, folder: String) -> Result<(), Fault> {
    if folder.is_empty() {
        return Err(no_store("--store names no folder"));
    }
    if read.store.is_some() {
        return Err(no_store("--store stands twice"));
    }
    read.store = Some(folder);
    Ok(())
}

/// A number in decimal digits without leading zeros; one that is larger than any is
/// the largest here.
pub fn number(word: &str) -> Option<u64> {
    let digits = !word.is_empty() && word.bytes().all(|byte| byte.is_ascii_digit());
    let leads = word.len() > 1 && word.starts_with('0');
    (digits && !leads).then(|| word.parse().unwrap_or(u64::MAX))
}

pub fn no_number(word: &str) -> Fault {
    wrong_word(
        word.as_bytes(),
        "it is no number in decimal digits without leading zeros",
    )
}

/// The number of a machine that there can be.
pub fn machine(word: &str) -> Result<u8, Fault> {
    let number = number(word).ok_or_else(|| no_number(word))?;
    match u8::try_from(number) {
        Ok(machine) if machine <= MAX_MACHINE => Ok(machine),
        _ => {
            let why = format!("a machine has a number from 0 to {MAX_MACHINE}");
            let instead = "name one that is on the list of machines, or had been";
            Err(Fault::new(format!("machine {word}"), why, instead).by(1))
        }
    }
}

/// A machine, and the number of a day of it that there can be.
pub fn day(machine_word: &str, word: &str) -> Result<(u8, u32), Fault> {
    let number = number(word).ok_or_else(|| no_number(word))?;
    let machine = machine(machine_word)?;
    match u32::try_from(number) {
        Ok(number) if number > 0 => Ok((machine, number)),
        _ => Err(no_such_day(machine, word)),
    }
}

pub fn no_such_day(machine: u8, number: impl std::fmt::Display) -> Fault {
    let what = format!("day {number} of machine {machine}");
    let why = "there is no such day";
    Fault::new(what, why, "'list' says which there are").by(1)
}

#[cfg(test)]
mod tests {
    use super::*;
    use std::os::unix::ffi::OsStringExt;

    fn asked(command: Command, arguments: &[&str]) -> Result<Asked, Fault> {
        read(command, arguments.iter().map(OsString::from).collect())
    }

    fn words(command: Command, arguments: &[&str]) -> (Option<String>, bool, Vec<String>) {
        match asked(command, arguments) {
            Ok(Asked::Work(read)) => (read.store, read.progress, read.words),
            other => panic!("{other:?}"),
        }
    }

    #[test]
    fn options_stand_anywhere() {
        let expected = (
            Some("x".to_owned()),
            true,
            vec!["0".to_owned(), "-".to_owned()],
        );
        for arguments in [
            &["--store", "x", "--progress", "0", "-"][..],
            &["0", "--progress", "-", "--store=x"],
            &["0", "--store", "x", "--progress", "--", "-"],
        ] {
            assert_eq!(words(Command::Day, arguments), expected);
        }
        let (_, _, words) = words(Command::Day, &["--", "0", "--help"]);
        assert_eq!(words, ["0", "--help"]);
    }

    #[test]
    fn help_wherever_it_stands() {
        for arguments in [
            &["--help"][..],
            &["0", "--nonsense", "--help"],
            &["--store", "--help", "1", "2", "3"],
        ] {
            assert_eq!(asked(Command::Go, arguments), Ok(Asked::Help));
        }
        let odd = vec![OsString::from_vec(vec![0xff]), "--help".into()];
        assert_eq!(read(Command::Go, odd), Ok(Asked::Help));
    }

    #[test]
    fn wrong_arguments() {
        for arguments in [
            &["0"][..],
            &["0", "1", "2"],
            &["0", "1", "--store"],
            &["0", "1", "--store="],
            &["0", "1", "--store=a", "--store=a"],
            &["0", "1", "--progress"],
            &["0", "-1"],
        ] {
            assert!(asked(Command::Go, arguments).is_err(), "{arguments:?}");
        }
        let odd = vec!["0".into(), OsString::from_vec(vec![0xff])];
        assert!(read(Command::Go, odd).is_err());
    }

    #[test]
    fn numbers() {
        for (word, expected) in [
            ("0", Some(0)),
            ("63", Some(63)),
            ("99999999999999999999999", Some(u64::MAX)),
            ("", None),
            ("00", None),
            ("07", None),
            ("+7", None),
            ("-7", None),
            ("7 ", None),
            ("x", None),
        ] {
            assert_eq!(number(word), expected, "{word}");
        }
        assert!(machine("64").is_err() && day("0", "0").is_err());
        assert_eq!(day("63", "4294967295"), Ok((63, u32::MAX)));
        assert!(day("63", "4294967296").is_err());
    }
}
