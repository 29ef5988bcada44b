//! `mend` and `accept`: a sound copy of a damaged pool, and whether one is.

use std::path::PathBuf;

use danumrikal::{check_mended, mend};

use crate::args::Args;
use crate::failure::Failure;
use crate::verdict::count;
use crate::{change, file, help, output, Command};

/// The command `mend`.
pub const MEND: Command = Command {
    name: "mend",
    help: help::MEND,
    flags: &["--force"],
    valued: &["-o"],
    run: run_mend,
};

/// The command `accept`.
pub const ACCEPT: Command = Command {
    name: "accept",
    help: help::ACCEPT,
    flags: &[],
    valued: &[],
    run: run_accept,
};

fn run_mend(args: &mut Args) -> Result<(), Failure> {
    let (path, out) = in_and_out(args, "DAMAGED")?;
    let damaged = file::read("mend", &path)?;
    let mut copy = vec![0; damaged.len()];
    let pages = mend(&damaged, &mut copy)
        .map_err(|refusal| Failure::refused(format!("mend {}", path.display()), refusal))?;
    change::write("mend", &out, &copy, args.flag("--force"))?;
    output::print_done(&format!("mended: {}\n", count(pages as usize, "page")))
}

fn run_accept(args: &mut Args) -> Result<(), Failure> {
    let damaged = args.file("DAMAGED")?;
    let mended = args.file("MENDED")?;
    args.end()?;
    let [old, new] = [&damaged, &mended].map(|path| file::read("accept", path));
    check_mended(&old?, &new?).map_err(|refusal| {
        let tried = format!("accept {} {}", damaged.display(), mended.display());
        Failure::refused(tried, refusal)
    })?;
    output::print("accepted\n")
}

/// The file to read and the one to write, which are two: what is read stays.
pub fn in_and_out(args: &mut Args, what: &str) -> Result<(PathBuf, PathBuf), Failure> {
    let path = args.file(what)?;
    args.end()?;
    let out = args.value("-o").map(PathBuf::from);
    let out = out.ok_or_else(|| args.usage("-o OUT is missing"))?;
    let same = |one: &PathBuf| one.canonicalize().ok();
    if same(&path).is_some() && same(&path) == same(&out) {
        return Err(args.usage(format!(
            "{what} and OUT are one file, and {what} stays as it is"
        )));
    }
    file::may_write(args.command(), &out, args.flag("--force"))?;
    Ok((path, out))
}
