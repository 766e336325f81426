//! `go` lets a day go.

use super::fault::{shown_day, Fault};
use super::folder::Folder;
use super::words::{day, no_such_day, Words};

pub const HELP: &str = "\
go [--store FOLDER] M N

Lets day N of machine M go. Its pieces stay until a sweep finds that no day
has them. Without --store the store is the folder in the environment variable
ZELTUVA_STORE.

    go 0 3
";

pub fn run(words: &Words, output: &mut Vec<u8>) -> Result<(), Fault> {
    let (machine, number) = day(&words.words[0], &words.words[1])?;
    let folder = Folder::open(&words.store()?)?;
    if !folder.let_go(machine, number)? {
        return Err(no_such_day(machine, number));
    }
    output.extend(format!("{} is let go\n", shown_day(machine, number)).bytes());
    Ok(())
}
