//! `map`: a picture of a pool, for the terminal or as a sheet to print.

mod counts;
mod pen;
mod svg;
mod terminal;
mod text;

use std::path::{Path, PathBuf};

use crate::args::Args;
use crate::failure::Failure;
use crate::records::Records;
use crate::verdict::Verdict;
use crate::view::{live_blocks, page_count, spans, Span};
use crate::{change, file, help, output, Command};

/// The command.
pub const COMMAND: Command = Command {
    name: "map",
    help: help::MAP,
    flags: &["--force"],
    valued: &["--svg", "--color", "--width"],
    run,
};

/// What is drawn.
struct Picture {
    /// The file's name.
    name: String,
    verdict: Verdict,
    /// What the pages are, by rising page; none where nothing can be read.
    spans: Vec<Span>,
}

impl Picture {
    /// A sound pool is drawn as the proved calls tell it, a broken one as its
    /// records stand.
    fn of(path: &Path, bytes: &[u8]) -> Picture {
        let blocks = live_blocks(bytes).ok();
        let sound = blocks.map(|blocks| spans(page_count(bytes).unwrap_or(0), &blocks));
        let stand = || Records::of(bytes).map(|records| records.spans());
        Picture {
            name: path.display().to_string(),
            verdict: Verdict::of(bytes),
            spans: sound.or_else(stand).unwrap_or_default(),
        }
    }

    /// How many pages there are to draw.
    fn pages(&self) -> usize {
        self.spans.iter().map(|span| span.length).sum()
    }
}

/// How full a class page is, in four steps.
#[derive(Clone, Copy)]
enum Fill {
    Quarter,
    Half,
    More,
    Full,
}

impl Fill {
    fn of(used: usize, counted: usize) -> Fill {
        match used * 4 {
            _ if used >= counted => Fill::Full,
            quarters if quarters < counted => Fill::Quarter,
            quarters if quarters < 2 * counted => Fill::Half,
            _ => Fill::More,
        }
    }
}

fn run(args: &mut Args) -> Result<(), Failure> {
    let path = args.file("FILE")?;
    args.end()?;
    let color = terminal::wants_color(args)?;
    let width = match args.number("--width")? {
        Some(width) => width as usize,
        None => terminal::width(),
    };
    let sheet = args.value("--svg").map(PathBuf::from);
    if let Some(sheet) = &sheet {
        file::may_write("map: write", sheet, args.flag("--force"))?;
    }
    let picture = Picture::of(&path, &file::read("map", &path)?);
    match sheet {
        Some(sheet) => {
            let text = svg::sheet(&picture);
            change::write("map: write", &sheet, text.as_bytes(), args.flag("--force"))?;
            output::print_done(&format!("{}\n", picture.verdict.line()))?;
        }
        None => output::print(&text::picture(&picture, width, color))?,
    }
    match picture.verdict {
        Verdict::Sound { .. } => Ok(()),
        Verdict::Broken { .. } => Err(Failure::printed()),
    }
}
