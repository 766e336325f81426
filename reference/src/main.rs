use reference::frames::read_days;
use reference::script::{play, Failure, Manner};
use reference::variant::Variant;
use std::env;
use std::io;
use std::process::ExitCode;

/// The exit status where the promise is broken.
const BROKEN: u8 = 2;

/// What is to be done.
enum Command {
    /// Play a script.
    Play(Manner),
    /// Read strings as day files.
    ReadDays,
}

fn main() -> ExitCode {
    let Some(command) = command(env::args().skip(1).collect()) else {
        eprintln!("reference: write the command as 'reference [--check] [--variant NAME]'");
        let names = Variant::ALL.map(Variant::name).join(", ");
        eprintln!("reference: NAME is one of {names}");
        eprintln!("reference: with --check the promise is checked after each line, up to the first one that damages something");
        eprintln!(
            "reference: or as 'reference --read-days', to read strings in frames as day files"
        );
        return ExitCode::FAILURE;
    };
    let (input, output) = (io::stdin().lock(), io::stdout().lock());
    let done = match command {
        Command::Play(manner) => play(input, output, manner),
        Command::ReadDays => read_days(input, output).map_err(Failure::Io),
    };
    match done {
        Ok(()) => ExitCode::SUCCESS,
        Err(failure) => {
            eprintln!("reference: {failure}");
            match failure {
                Failure::Io(_) => ExitCode::FAILURE,
                Failure::Broken(..) => ExitCode::from(BROKEN),
            }
        }
    }
}

/// What the arguments say; `None` where they are not as they should be.
fn command(arguments: Vec<String>) -> Option<Command> {
    if arguments == ["--read-days"] {
        return Some(Command::ReadDays);
    }
    let mut manner = Manner::default();
    let mut arguments = arguments.into_iter();
    while let Some(argument) = arguments.next() {
        match argument.as_str() {
            "--check" => manner.check = true,
            "--variant" => manner.variant = Some(Variant::from_name(&arguments.next()?)?),
            _ => return None,
        }
    }
    Some(Command::Play(manner))
}
