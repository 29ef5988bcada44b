//! `take`: a block more.

use danumrikal::Pool;

use crate::args::Args;
use crate::change::change;
use crate::failure::Failure;
use crate::{help, output, Command};

/// The command.
pub const COMMAND: Command = Command {
    name: "take",
    help: help::TAKE,
    flags: &[],
    valued: &[],
    run,
};

fn run(args: &mut Args) -> Result<(), Failure> {
    let path = args.file("FILE")?;
    let size = args.word_number("SIZE")?;
    args.end()?;
    let offset = change("take", &path, |bytes| {
        let taken = Pool::new(bytes).alloc(size);
        taken
            .map_err(|refusal| Failure::refused(format!("take {} {size}", path.display()), refusal))
    })?;
    output::print_done(&format!("at {offset}\n"))
}
