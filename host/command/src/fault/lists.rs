//! Rules 3 and 4: the lists.

use danumrikal::CLASSES;

use super::{fault, named, Fault, Place};
use crate::class;
use crate::records::{Records, NONE};

/// A list: from where it is led to, and which pages belong on it.
struct List<'a> {
    head: Place,
    first: usize,
    what: &'a str,
    belongs: &'a dyn Fn(usize) -> bool,
}

/// Where a list goes wrong, walked from its first page.
fn wrong_list(records: Records, list: List) -> Option<Fault> {
    let mut seen = vec![false; records.pages];
    let (mut from, mut before, mut at) = (list.head, NONE, list.first);
    while at != NONE {
        if at >= records.pages {
            return fault(from, format!("leads to page {at} of {}", records.pages));
        }
        if !(list.belongs)(at) {
            return fault(
                from,
                format!("leads to page {at}, which is no {}", list.what),
            );
        }
        if seen[at] {
            return fault(
                from,
                format!("leads back to page {at}, so the list has no end"),
            );
        }
        seen[at] = true;
        let record = records.page(at);
        from = Place::Page(at);
        if record.previous != before {
            let what = format!(
                "has previous {}, and should have {}",
                named(record.previous),
                named(before)
            );
            return fault(from, what);
        }
        (before, at) = (at, record.next);
    }
    let lost = (0..records.pages).find(|&page| (list.belongs)(page) && !seen[page])?;
    fault(
        Place::Page(lost),
        format!("is a {} that is not on the list", list.what),
    )
}

/// Rule 3.
pub fn wrong_free_list(records: Records) -> Option<Fault> {
    wrong_list(
        records,
        List {
            head: Place::Header,
            first: records.header().first,
            what: "first page of a free run",
            belongs: &|page| records.page(page).kind == 1,
        },
    )
}

/// Rule 4.
pub fn wrong_class_list(records: Records) -> Option<Fault> {
    let full = |page, class| records.used(page, class) == class::counted(class);
    for class in 0..CLASSES {
        let of_class = |page| {
            let record = records.page(page);
            record.kind == 2 && record.class == class
        };
        let found = wrong_list(
            records,
            List {
                head: Place::Class(class),
                first: records.class(class).first,
                what: &format!("page of class {} with a free chunk", class::chunk(class)),
                belongs: &|page| of_class(page) && !full(page, class),
            },
        );
        if found.is_some() {
            return found;
        }
        let linked = |&page: &usize| {
            let record = records.page(page);
            of_class(page) && full(page, class) && (record.next, record.previous) != (NONE, NONE)
        };
        if let Some(page) = (0..records.pages).find(linked) {
            return fault(Place::Page(page), "is full, and has links");
        }
    }
    None
}
