//! `check`: is it a sound pool?

use std::path::Path;

use crate::args::Args;
use crate::failure::Failure;
use crate::verdict::{meaning, mendable, Verdict};
use crate::{file, help, output, Command};

/// The command.
pub const COMMAND: Command = Command {
    name: "check",
    help: help::CHECK,
    flags: &[],
    valued: &[],
    run,
};

fn run(args: &mut Args) -> Result<(), Failure> {
    let path = args.file("FILE")?;
    args.end()?;
    let bytes = file::read("check", &path)?;
    let verdict = Verdict::of(&bytes);
    let Verdict::Broken { rule, fault } = &verdict else {
        return output::print(&format!("{}\n", verdict.line()));
    };
    let mut told = format!("{}\n", verdict.line());
    if let Some(fault) = fault {
        told += &format!("  found: {fault}\n");
    }
    told += &format!("  asked: {}\n", meaning(*rule));
    told += &match mendable(&bytes) {
        Ok(()) => format!(
            "  go on: danumrikal mend {} -o NEW, which makes a sound copy\n",
            quoted(&path)
        ),
        Err(refusal) => format!("  go on: with an older copy, this one is {refusal}\n"),
    };
    output::print(&told)?;
    Err(Failure::printed())
}

/// A name as a shell reads it.
fn quoted(path: &Path) -> String {
    let name = path.display().to_string();
    let plain = |c: char| c.is_alphanumeric() || "_./-".contains(c);
    match name.chars().all(plain) {
        true => name,
        false => format!("'{}'", name.replace('\'', r"'\''")),
    }
}
