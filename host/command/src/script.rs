//! `script`: a script of takes and gives, served as the proved script program
//! serves it (SPEC 8), on a fresh pool of 12 pages in memory.

use std::fs::File;
use std::io::{self, Read};
use std::path::PathBuf;

use danumrikal::{Edition, Offset, Pool, Refusal};

use crate::args::Args;
use crate::failure::Failure;
use crate::view::{live_blocks, spans, Sums};
use crate::{help, output, Command};

/// The command.
pub const COMMAND: Command = Command {
    name: "script",
    help: help::SCRIPT,
    flags: &[],
    valued: &[],
    run,
};

/// The longest script that is served, in bytes.
const LONGEST: usize = 12_288;
/// The pages of its pool.
const PAGES: usize = 12;
/// The number of the refusal of a script that is too long (SPEC 5).
const TOO_LONG: u8 = 9;

fn run(args: &mut Args) -> Result<(), Failure> {
    let path = args.optional_file();
    args.end()?;
    let script = read(path)?;
    if script.len() > LONGEST {
        output::print(&format!("no {TOO_LONG}\n"))?;
        return Err(Failure::told(
            format!("script: script too long ({TOO_LONG})"),
            format!("cut it: a script has at most {LONGEST} bytes"),
        ));
    }
    let printout = serve(&script).map_err(|refusal| Failure::refused("script", refusal))?;
    output::print(&printout)
}

/// The script, or a byte more than one may have.
fn read(path: Option<PathBuf>) -> Result<Vec<u8>, Failure> {
    let (tried, input): (String, io::Result<Box<dyn Read>>) = match path {
        Some(path) => (
            format!("script {}", path.display()),
            File::open(&path).map(|file| Box::new(file) as Box<dyn Read>),
        ),
        None => (
            "script: standard input".to_owned(),
            Ok(Box::new(io::stdin())),
        ),
    };
    let mut script = Vec::new();
    let limit = LONGEST as u64 + 1;
    let read = input.and_then(|input| input.take(limit).read_to_end(&mut script));
    read.map_err(|error| Failure::io(tried, &error))?;
    Ok(script)
}

/// The printout of a script (SPEC 8.2).
fn serve(script: &[u8]) -> Result<String, Refusal> {
    let mut bytes = vec![0; Edition::One.length(PAGES)];
    let mut pool = Pool::new(&mut bytes);
    let mut printout = format!("pool {}\n", pool.format(Edition::One)?);
    for line in script.split_inclusive(|&byte| byte == b'\n') {
        let answer = match Line::read(line.strip_suffix(b"\n").unwrap_or(line)) {
            Some(Line::Take(size)) => pool.alloc(size).map(|offset| format!("at {offset}\n")),
            Some(Line::Give(offset)) => pool.free(offset).map(|bytes| format!("back {bytes}\n")),
            None => Err(Refusal::Unreadable),
        };
        printout += &answer.unwrap_or_else(|refusal| format!("no {}\n", refusal.number()));
    }
    let free = Sums::of(&spans(PAGES, &live_blocks(&bytes)?)).free;
    Ok(printout + &format!("free {} runs {}\n", free.pages, free.spans))
}

/// A line of a script.
enum Line {
    Take(u32),
    Give(Offset),
}

impl Line {
    /// The line without its newline, if it is of the form (SPEC 8.1).
    fn read(line: &[u8]) -> Option<Line> {
        let line = std::str::from_utf8(line).ok()?;
        match line.split_once(' ')? {
            ("take", size) => numeral(size).map(Line::Take),
            ("give", offset) => numeral(offset).map(|offset| Line::Give(Offset(offset))),
            _ => None,
        }
    }
}

/// A number in decimal without sign and needless zeros.
fn numeral(digits: &str) -> Option<u32> {
    let number: u32 = digits.parse().ok()?;
    (number.to_string() == digits).then_some(number)
}
