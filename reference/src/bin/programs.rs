//! The six programs on a store in a folder, in one: which of them it is says the name
//! that it is called by, or else its first argument.

use reference::programs::{run, Command};
use std::env;
use std::ffi::OsString;
use std::path::Path;
use std::process::ExitCode;

fn main() -> ExitCode {
    let mut arguments = env::args_os();
    let called = arguments.next().unwrap_or_default();
    let by_name = Path::new(&called).file_name().and_then(Command::named);
    let command = by_name.or_else(|| Command::named(&arguments.next()?));
    let Some(command) = command else {
        let names = Command::ALL.map(Command::name).join(", ");
        eprintln!("programs: the first argument: it names no program; name one of {names}");
        return ExitCode::FAILURE;
    };
    run(command, arguments.collect::<Vec<OsString>>())
}
