//! `format`: a new pool, with all pages free.

use danumrikal::{Edition, Pool, MOST_PAGES};

use crate::args::Args;
use crate::failure::Failure;
use crate::verdict::count;
use crate::{change, file, help, output, Command};

/// The command.
pub const COMMAND: Command = Command {
    name: "format",
    help: help::FORMAT,
    flags: &["--force"],
    valued: &["--pages", "--edition"],
    run,
};

fn run(args: &mut Args) -> Result<(), Failure> {
    let path = args.file("FILE")?;
    args.end()?;
    let pages = args.number("--pages")?;
    let pages = pages.ok_or_else(|| args.usage("--pages is missing"))? as usize;
    let edition = match args.number("--edition")? {
        None => Edition::Two,
        Some(number) => u8::try_from(number)
            .ok()
            .and_then(Edition::from_number)
            .ok_or_else(|| args.usage("--edition is neither 1 nor 2"))?,
    };
    let force = args.flag("--force");
    file::may_write("format", &path, force)?;
    // one page too many is as much refused as any more
    let mut bytes = vec![0; edition.length(pages.min(MOST_PAGES + 1))];
    Pool::new(&mut bytes).format(edition).map_err(|refusal| {
        Failure::refused(
            format!("format {} --pages {pages}", path.display()),
            refusal,
        )
    })?;
    change::write("format", &path, &bytes, force)?;
    output::print_done(&format!("formatted: {}, {edition}\n", count(pages, "page")))
}
