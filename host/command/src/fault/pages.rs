//! Rule 2: what a page is.

use danumrikal::CLASSES;

use super::{fault, named, Fault, Place};
use crate::class;
use crate::records::{PageRecord, Records, NONE};

/// Rule 2, from run to run.
pub fn wrong_page(records: Records) -> Option<Fault> {
    let mut at = 0;
    while at < records.pages {
        let record = records.page(at);
        let wrong = match record.kind {
            1 | 3 => match wrong_run(records, at, &record) {
                None => {
                    at += record.run;
                    continue;
                }
                found => return found,
            },
            2 => wrong_class_page(records, at, &record),
            0 | 4 => Some("is inside a run that begins nowhere".to_owned()),
            kind => Some(format!("is of kind {kind}, and there is none")),
        };
        if let Some(wrong) = wrong {
            return fault(Place::Page(at), wrong);
        }
        at += 1;
    }
    None
}

fn wrong_run(records: Records, first: usize, record: &PageRecord) -> Option<Fault> {
    let here = Place::Page(first);
    let (name, inside) = match record.kind {
        1 => ("free", 0),
        _ => ("taken", 4),
    };
    let end = first + record.run;
    if record.run == 0 {
        return fault(here, format!("begins a {name} run of no page"));
    }
    if end > records.pages {
        let run = record.run;
        return fault(
            here,
            format!("begins a {name} run of {run} pages, past the last"),
        );
    }
    let linked = record.kind == 3 && (record.next, record.previous) != (NONE, NONE);
    if linked || record.class != 0 || record.map != 0 || record.zeros != 0 {
        return fault(here, stray(&format!("begins a {name} run")));
    }
    for page in first + 1..end {
        let record = records.page(page);
        if record.kind != inside {
            let what = format!(
                "is of kind {} inside the {name} run of page {first}",
                record.kind
            );
            return fault(Place::Page(page), what);
        }
        let back = if inside == 0 && page + 1 == end {
            first
        } else {
            NONE
        };
        if record.previous != back {
            let what = format!(
                "has previous {}, and should have {}",
                named(record.previous),
                named(back)
            );
            return fault(Place::Page(page), what);
        }
        let rest = (
            record.map,
            record.class,
            record.run,
            record.next,
            record.zeros,
        );
        if rest != (0, 0, 0, NONE, 0) {
            return fault(Place::Page(page), stray(&format!("is inside a {name} run")));
        }
    }
    let touches = record.kind == 1 && end < records.pages && records.page(end).kind < 2;
    let what = || format!("is free right behind the free run of page {first}");
    touches.then(|| fault(Place::Page(end), what())).flatten()
}

fn stray(what: &str) -> String {
    format!("{what}, and fields that should be empty are not")
}

fn wrong_class_page(records: Records, page: usize, record: &PageRecord) -> Option<String> {
    let class = record.class;
    if class >= CLASSES {
        return Some(format!("is of class {class}, and there is none"));
    }
    let own = class::own(class);
    let unused = if own > 0 {
        record.map
    } else {
        low_bits(record.map, class::chunks(class))
    };
    if unused != 0 || record.run != 0 || record.zeros != 0 {
        return Some(stray("is a class page"));
    }
    let all = records.marks(page, class)[..own]
        .iter()
        .all(|&marked| marked);
    (!all).then(|| "has a map whose own chunks are not marked".to_owned())
}

/// The bits of a map field behind its first `chunks`.
fn low_bits(map: u64, chunks: usize) -> u64 {
    map.checked_shl(chunks as u32).unwrap_or(0)
}
