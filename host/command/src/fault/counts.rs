//! Rules 5 and 6: what can be counted.

use danumrikal::CLASSES;

use super::{fault, Fault, Place};
use crate::class;
use crate::records::Records;

/// Rule 5.
pub fn idle_page(records: Records) -> Option<Fault> {
    let idle = |&page: &usize| {
        let record = records.page(page);
        record.kind == 2 && records.used(page, record.class) == 0
    };
    let page = (0..records.pages).find(idle)?;
    fault(Place::Page(page), "is a class page without a chunk in use")
}

/// Rule 6.
pub fn wrong_count(records: Records) -> Option<Fault> {
    let differs = |place, what, told, counted| {
        fault(
            place,
            format!("says {told} {what}, and {counted} can be counted"),
        )
    };
    let page = |page| records.page(page);
    let free = (0..records.pages).filter(|&at| page(at).kind < 2).count();
    let told = records.header().free;
    if told != free {
        return differs(Place::Header, "free pages", told, free);
    }
    for class in 0..CLASSES {
        let place = Place::Class(class);
        let of_class = |at: &usize| page(*at).kind == 2 && page(*at).class == class;
        let pages: Vec<usize> = (0..records.pages).filter(of_class).collect();
        let used = pages.iter().map(|&at| records.used(at, class)).sum();
        let total = pages.len() * class::counted(class);
        let record = records.class(class);
        if record.used != used {
            return differs(place, "chunks in use", record.used, used);
        }
        if record.total != total {
            return differs(place, "chunks in all", record.total, total);
        }
        if let Some(peak) = record.peak.filter(|&peak| (peak as usize) < used) {
            return fault(
                place,
                format!("has the peak {peak}, and {used} chunks are in use"),
            );
        }
        if record.zeros != 0 {
            return fault(place, "has bits set behind its peak");
        }
    }
    None
}
