//! Why a step is refused: the number of each refusal and its words, as
//! `docs/REHEARSE.md` lists them.

use crate::cutting::{MAX_FILE, MOST};
use crate::dayfile::{MAX_FILES, MAX_PATH};
use crate::store::MAX_LISTED;
use std::fmt;

#[derive(Clone, Copy, Debug, PartialEq, Eq)]
pub enum Refusal {
    FileTooLong,
    /// A path without bytes, or with too many.
    NoPath,
    PieceEmpty,
    PieceTooLong,
    /// There is no such machine on the list, no such day, no such path in it, or
    /// nothing to damage there.
    NotThere,
    TooManyFiles,
    /// A path that is not above the one before it in the day.
    PathNotAbove,
    /// A day has that name already. No script gets here: a machine's number
    /// only rises, and a day has the number that was raised for it.
    NameTaken,
    /// A day's file is not of the form, or a piece is not there, or the pieces of a
    /// file have another length.
    DayDamaged,
    AlreadyMakesDay,
    MakesNoDay,
    NumberRaised,
    NumberNotRaised,
    /// The sweeper is at another point of its sweep.
    NotAtThatPoint,
    /// The sweeper waits for a machine.
    NoDaySince,
    ListsFull,
    LastNumber,
}

impl Refusal {
    pub fn number(self) -> u8 {
        match self {
            Refusal::FileTooLong
            | Refusal::NoPath
            | Refusal::PieceEmpty
            | Refusal::PieceTooLong
            | Refusal::NotThere
            | Refusal::TooManyFiles
            | Refusal::PathNotAbove => 1,
            Refusal::NameTaken | Refusal::DayDamaged => 2,
            Refusal::AlreadyMakesDay
            | Refusal::MakesNoDay
            | Refusal::NumberRaised
            | Refusal::NumberNotRaised => 3,
            Refusal::NotAtThatPoint | Refusal::NoDaySince => 4,
            Refusal::ListsFull => 5,
            Refusal::LastNumber => 6,
        }
    }
}

impl fmt::Display for Refusal {
    fn fmt(&self, f: &mut fmt::Formatter) -> fmt::Result {
        write!(f, "refused by {}: ", self.number())?;
        match self {
            Refusal::FileTooLong => write!(f, "a file has at most {MAX_FILE} bytes"),
            Refusal::NoPath => write!(f, "a path has from 1 to {MAX_PATH} bytes"),
            Refusal::PieceEmpty => f.write_str("a piece has at least one byte"),
            Refusal::PieceTooLong => write!(f, "a piece has at most {MOST} bytes"),
            Refusal::NotThere => f.write_str("there is no such machine, day or path"),
            Refusal::TooManyFiles => write!(f, "a day has at most {MAX_FILES} files"),
            Refusal::PathNotAbove => f.write_str("a path must be above the one before it"),
            Refusal::NameTaken => f.write_str("there is a day of that number already"),
            Refusal::DayDamaged => f.write_str("a day is damaged or incomplete"),
            Refusal::AlreadyMakesDay => f.write_str("the machine already makes a day"),
            Refusal::MakesNoDay => f.write_str("the machine makes no day"),
            Refusal::NumberRaised => {
                f.write_str("the day has its number already, and is to be named or broken off")
            }
            Refusal::NumberNotRaised => {
                f.write_str("the day has no number yet, which is to be raised first")
            }
            Refusal::NotAtThatPoint => f.write_str("the sweeper is not at that point"),
            Refusal::NoDaySince => f.write_str("a machine has finished no day since"),
            Refusal::ListsFull => write!(f, "the lists have at most {MAX_LISTED} names"),
            Refusal::LastNumber => write!(f, "a day number is at most {}", u32::MAX),
        }
    }
}
