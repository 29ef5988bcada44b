//! Whether a pool is sound, in words.

use danumrikal::{check, mend, Edition, Refusal, Rule};

use crate::fault::{self, Fault};
use crate::view::page_count;

/// What the proved validation says of a pool.
pub enum Verdict {
    /// Sound, with so many pages.
    Sound {
        /// Its pages.
        pages: usize,
        /// Its edition.
        edition: Edition,
    },
    /// Not sound.
    Broken {
        /// The first rule that it breaks.
        rule: Rule,
        /// Where, if that could be found.
        fault: Option<Fault>,
    },
}

impl Verdict {
    /// Of these bytes.
    pub fn of(bytes: &[u8]) -> Verdict {
        match (check(bytes), Edition::of(bytes), page_count(bytes)) {
            (Ok(()), Some(edition), Some(pages)) => Verdict::Sound { pages, edition },
            (judged, ..) => {
                let rule = judged.err().unwrap_or(Rule::Header);
                let fault = fault::find(bytes, rule);
                Verdict::Broken { rule, fault }
            }
        }
    }

    /// In a line: `sound: 12 pages, edition 2`, or the rule and its place.
    pub fn line(&self) -> String {
        match self {
            Verdict::Sound { pages, edition } => {
                format!("sound: {}, {edition}", count(*pages, "page"))
            }
            Verdict::Broken { rule, fault } => {
                // of rule 1 the header is told already
                let placed = fault.as_ref().filter(|_| *rule != Rule::Header);
                let place = placed.map(|fault| format!(", at {}", fault.place));
                let (number, name) = (rule.number(), rule.name());
                format!("broken: rule {number}, {name}{}", place.unwrap_or_default())
            }
        }
    }

    /// Where it broke.
    pub fn fault(&self) -> Option<&Fault> {
        match self {
            Verdict::Sound { .. } => None,
            Verdict::Broken { fault, .. } => fault.as_ref(),
        }
    }
}

/// So many of something.
pub fn count(number: usize, what: &str) -> String {
    match number {
        1 => format!("1 {what}"),
        number => format!("{number} {what}s"),
    }
}

/// What a rule asks for.
pub fn meaning(rule: Rule) -> &'static str {
    match rule {
        Rule::Header => {
            "the first byte is 1 or 2, the file is as long as a pool of 1 to 4096 pages, \
             and the header says so"
        }
        Rule::Pages => "each page is free, in a taken run or cut into chunks, and recorded as such",
        Rule::FreeRuns => "the list of free runs holds each of them once, and links lead back",
        Rule::ClassLists => {
            "the list of a class holds each of its pages with a free chunk once, \
             links lead back, and full pages have none"
        }
        Rule::InUse => "each class page has a chunk in use",
        Rule::Counts => {
            "free pages and the chunks of each class, in use and in all, are what can be counted, \
             and no peak is below them"
        }
        _ => "docs/SPEC.md, section 3, has all rules",
    }
}

/// Whether a sound copy can be made.
pub fn mendable(bytes: &[u8]) -> Result<(), Refusal> {
    mend(bytes, &mut vec![0; bytes.len()]).map(|_| ())
}
