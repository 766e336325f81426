//! The programs on a store in a folder, as `docs/PROGRAMS.md` has them, over files as
//! `docs/FOLDER.md` has them.

mod back;
mod day;
mod fault;
mod folder;
mod go;
mod init;
mod list;
mod machines;
mod names;
mod sweep;
mod words;

use fault::Fault;
use std::ffi::{OsStr, OsString};
use std::io::{self, Write};
use std::process::ExitCode;
use words::{Asked, Words};

/// The programs that there are.
#[derive(Clone, Copy, Debug, PartialEq, Eq)]
pub enum Command {
    Init,
    Day,
    List,
    Back,
    Go,
    Sweep,
}

impl Command {
    pub const ALL: [Command; 6] = [
        Command::Init,
        Command::Day,
        Command::List,
        Command::Back,
        Command::Go,
        Command::Sweep,
    ];

    pub fn name(self) -> &'static str {
        match self {
            Command::Init => "init",
            Command::Day => "day",
            Command::List => "list",
            Command::Back => "back",
            Command::Go => "go",
            Command::Sweep => "sweep",
        }
    }

    pub fn named(name: &OsStr) -> Option<Command> {
        Command::ALL
            .into_iter()
            .find(|command| name == command.name())
    }

    /// How it is called, with an example.
    fn help(self) -> &'static str {
        match self {
            Command::Init => init::HELP,
            Command::Day => day::HELP,
            Command::List => list::HELP,
            Command::Back => back::HELP,
            Command::Go => go::HELP,
            Command::Sweep => sweep::HELP,
        }
    }

    /// Whether it knows `--progress`.
    fn has_progress(self) -> bool {
        matches!(self, Command::Day | Command::Sweep)
    }

    /// How many words it may be given.
    fn takes(self, count: usize) -> bool {
        match self {
            Command::Init => count >= 1,
            Command::Day | Command::Go => count == 2,
            Command::List => count == 0 || count == 2,
            Command::Back => count == 3 || count == 4,
            Command::Sweep => count == 0,
        }
    }

    /// What it writes goes to `output`, which counts also where it fails.
    fn play(self, words: &Words, output: &mut Vec<u8>) -> Result<(), Fault> {
        match self {
            Command::Init => init::run(words, output),
            Command::Day => day::run(words, output),
            Command::List => list::run(words, output),
            Command::Back => back::run(words, output),
            Command::Go => go::run(words, output),
            Command::Sweep => sweep::run(words, output),
        }
    }
}

/// Runs the program with these arguments.
pub fn run(command: Command, arguments: Vec<OsString>) -> ExitCode {
    let mut output = Vec::new();
    let done = match words::read(command, arguments) {
        Ok(Asked::Help) => {
            output.extend(command.help().as_bytes());
            Ok(())
        }
        Ok(Asked::Work(words)) => command.play(&words, &mut output),
        Err(fault) => Err(fault),
    };
    // What is listed already is written first, and then what is the matter.
    let written = write(&output);
    match done.and(written) {
        Ok(()) => ExitCode::SUCCESS,
        Err(fault) => {
            // Nobody can be told where standard error cannot be written either.
            let line = format!("{}: {fault}\n", command.name());
            _ = io::stderr().write_all(line.as_bytes());
            ExitCode::FAILURE
        }
    }
}

/// Says how far a program is. Where that cannot be written it goes on all the same.
fn say(command: Command, what: &str) {
    _ = writeln!(io::stderr(), "{}: {what}", command.name());
}

fn write(output: &[u8]) -> Result<(), Fault> {
    let mut standard = io::stdout().lock();
    let written = standard.write_all(output).and_then(|()| standard.flush());
    written.map_err(|error| {
        let why = format!("what was done cannot be written there: {error}");
        Fault::new("standard output", why, "it is done all the same")
    })
}
