//! The command for people: it looks at pools in files, mends them and goes on.
//!
//! All work on pools is done by the proved calls. This is the shell around them,
//! which programs in Rattle can't be: arguments, files of any size, locks, exit
//! statuses. What a sound pool holds is told by these calls too ([`view`]); the
//! records of a pool that is not sound are read here, to show where it broke.
//!
//! `danumrikal --help` says what there is, `danumrikal.1` all of it.

#![deny(missing_docs)]

mod args;
mod change;
mod check;
mod class;
mod convert;
mod failure;
mod fault;
mod file;
mod format;
mod give;
mod help;
mod json;
mod lock;
mod map;
mod mend;
mod output;
mod records;
mod report;
mod script;
mod take;
mod verdict;
pub mod view;

use std::ffi::OsString;

use args::Args;
use failure::Failure;

/// What a command is: its name, its options and what it does.
struct Command {
    name: &'static str,
    help: &'static str,
    /// Options without a value.
    flags: &'static [&'static str],
    /// Options with a value.
    valued: &'static [&'static str],
    run: fn(&mut Args) -> Result<(), Failure>,
}

/// All commands, in the order of the help.
const COMMANDS: [Command; 10] = [
    check::COMMAND,
    report::COMMAND,
    map::COMMAND,
    format::COMMAND,
    take::COMMAND,
    give::COMMAND,
    convert::COMMAND,
    mend::MEND,
    mend::ACCEPT,
    script::COMMAND,
];

/// Runs the command with these arguments, the program's name left out, and
/// answers the exit status: 0 done, 1 refused by the pool, 2 wrong usage, 3 input
/// or output.
pub fn run(words: impl Iterator<Item = OsString>) -> u8 {
    match serve(words) {
        Ok(()) => 0,
        Err(failure) => {
            failure.tell();
            failure.status()
        }
    }
}

fn serve(mut words: impl Iterator<Item = OsString>) -> Result<(), Failure> {
    let first = words.next().map(|word| word.to_string_lossy().into_owned());
    let name = first.as_deref().unwrap_or_default();
    match name {
        "" => return Err(Failure::usage("", "no command is named")),
        "--help" | "-h" | "help" => return output::print(help::ALL),
        "--version" | "-V" => return output::print(help::VERSION),
        _ => {}
    }
    let Some(command) = COMMANDS.iter().find(|command| command.name == name) else {
        return Err(Failure::usage("", format!("there is no command '{name}'")));
    };
    let mut args = Args::read(words, command)?;
    if args.flag("--help") {
        return output::print(command.help);
    }
    (command.run)(&mut args)
}
