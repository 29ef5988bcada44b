//! `convert`: a pool of edition 1 as one of edition 2.

use danumrikal::{convert, Edition, Refusal};

use crate::args::Args;
use crate::failure::Failure;
use crate::verdict::count;
use crate::view::page_count;
use crate::{change, file, help, mend, output, Command};

/// The command.
pub const COMMAND: Command = Command {
    name: "convert",
    help: help::CONVERT,
    flags: &["--force"],
    valued: &["-o"],
    run,
};

fn run(args: &mut Args) -> Result<(), Failure> {
    let (path, out) = mend::in_and_out(args, "IN")?;
    let source = file::read("convert", &path)?;
    let mut target = room(&source);
    let pages = convert(&source, &mut target).map_err(|refusal| {
        let tried = format!("convert {}", path.display());
        match (refusal, Edition::of(&source)) {
            (Refusal::NotSound, Some(Edition::Two)) => Failure::told(
                format!("{tried}: {refusal}"),
                "it is of edition 2 already, and edition 1 alone is converted",
            ),
            _ => Failure::refused(tried, refusal),
        }
    })?;
    change::write("convert", &out, &target, args.flag("--force"))?;
    output::print_done(&format!(
        "converted: {}, {}\n",
        count(pages as usize, "page"),
        Edition::Two
    ))
}

/// A slice for as many pages in edition 2, with the bytes behind the source's
/// last page, which the call leaves to us.
fn room(source: &[u8]) -> Vec<u8> {
    let pages = page_count(source).unwrap_or(0);
    let mut target = vec![0; Edition::Two.length(pages)];
    target.extend(source.get(Edition::One.length(pages)..).unwrap_or_default());
    target
}
