//! `report`: what a sound pool holds, line by line (SPEC 11) or as JSON.

use danumrikal::{Edition, Refusal, CLASSES};

use crate::args::Args;
use crate::failure::Failure;
use crate::records::Records;
use crate::verdict::Verdict;
use crate::view::{live_blocks, spans, Block, Extent, Kind, Span, Sums};
use crate::{class, file, help, json, output, Command};

/// The command.
pub const COMMAND: Command = Command {
    name: "report",
    help: help::REPORT,
    flags: &["--blocks", "--json"],
    valued: &[],
    run,
};

fn run(args: &mut Args) -> Result<(), Failure> {
    let path = args.file("FILE")?;
    args.end()?;
    let bytes = file::read("report", &path)?;
    let tried = format!("report {}", path.display());
    if let Verdict::Broken { rule, .. } = Verdict::of(&bytes) {
        if args.flag("--json") {
            output::print(&json::broken(rule))?;
        }
        return Err(Failure::refused(
            format!("{tried}: rule {}, {}", rule.number(), rule.name()),
            Refusal::NotSound,
        ));
    }
    let facts = Facts::of(&bytes).map_err(|refusal| Failure::refused(tried, refusal))?;
    let blocks = args.flag("--blocks");
    output::print(&match args.flag("--json") {
        true => json::report(&facts, blocks),
        false => lines(&facts, blocks),
    })
}

/// What is told of a sound pool.
pub struct Facts {
    pub edition: Edition,
    pub pages: usize,
    pub classes: [ClassFacts; CLASSES],
    /// Free and taken runs and class pages, by rising page.
    pub spans: Vec<Span>,
    /// By rising offset.
    pub blocks: Vec<Block>,
}

/// What is told of a class.
pub struct ClassFacts {
    pub size: usize,
    pub pages: usize,
    pub used: usize,
    pub total: usize,
    pub asks: u32,
    pub failures: u32,
    /// In edition 2.
    pub peak: Option<u32>,
}

impl Facts {
    /// Blocks, and what follows from them, are told by the proved calls; asks,
    /// failures and peaks, which no call tells, stand in the class records.
    fn of(bytes: &[u8]) -> Result<Facts, Refusal> {
        let records = Records::of(bytes).ok_or(Refusal::NotSound)?;
        let blocks = live_blocks(bytes)?;
        let spans = spans(records.pages, &blocks);
        let sums = Sums::of(&spans);
        Ok(Facts {
            edition: records.edition,
            pages: records.pages,
            classes: std::array::from_fn(|class| {
                let record = records.class(class);
                let sum = sums.classes[class];
                ClassFacts {
                    size: class::chunk(class),
                    pages: sum.pages,
                    used: sum.used,
                    total: sum.pages * class::counted(class),
                    asks: record.asks,
                    failures: record.failures,
                    peak: record.peak,
                }
            }),
            spans,
            blocks,
        })
    }

    /// The runs: whether each is free, its first page and its length.
    pub fn runs(&self) -> impl Iterator<Item = (&'static str, usize, usize)> + '_ {
        self.spans.iter().filter_map(|span| {
            let kind = match span.kind {
                Kind::Free => "free",
                Kind::Taken => "taken",
                _ => return None,
            };
            Some((kind, span.first, span.length))
        })
    }
}

/// The lines of the proved report program; in edition 2 with edition and peaks.
fn lines(facts: &Facts, blocks: bool) -> String {
    let mut lines = format!("pool {}", facts.pages);
    if facts.edition != Edition::One {
        lines += &format!(" {}", facts.edition);
    }
    lines += "\n";
    for class in &facts.classes {
        lines += &format!(
            "class {} pages {} used {} total {} asks {} failures {}",
            class.size, class.pages, class.used, class.total, class.asks, class.failures
        );
        if let Some(peak) = class.peak {
            lines += &format!(" peak {peak}");
        }
        lines += "\n";
    }
    for (kind, first, length) in facts.runs() {
        lines += &format!("run {kind} {first} {length}\n");
    }
    for block in facts.blocks.iter().filter(|_| blocks) {
        lines += &match block.extent {
            Extent::Chunk(class) => {
                format!("block {} class {}\n", block.offset, class::chunk(class))
            }
            Extent::Pages(pages) => format!("block {} pages {pages}\n", block.offset),
        };
    }
    lines
}
