//! The counts under a picture.

use danumrikal::CLASSES;

use crate::class;
use crate::verdict::count;
use crate::view::{Kind, Span, Sum, Sums};

/// A line for each kind of span that a pool has, free and taken ones always,
/// with a sample of it: a class page as full as the class's pages on average.
pub fn lines(spans: &[Span]) -> Vec<(Kind, String)> {
    let sums = Sums::of(spans);
    let mut lines = vec![
        (Kind::Free, format!("free: {}", runs(sums.free))),
        (Kind::Taken, format!("taken: {}", runs(sums.taken))),
    ];
    if sums.odd.pages > 0 {
        let what = format!("unreadable: {}", count(sums.odd.pages, "page"));
        lines.push((Kind::Odd, what));
    }
    for class in (0..CLASSES).filter(|&class| sums.classes[class].pages > 0) {
        let Sum { pages, used, .. } = sums.classes[class];
        let what = format!(
            "{} bytes: {}, {used} of {} chunks in use",
            class::chunk(class),
            count(pages, "page"),
            pages * class::counted(class)
        );
        let used = used / pages;
        lines.push((Kind::Chunks { class, used }, what));
    }
    lines
}

fn runs(sum: Sum) -> String {
    let pages = count(sum.pages, "page");
    match sum.spans {
        0 => pages,
        spans => format!(
            "{pages} in {}, the longest {}",
            count(spans, "run"),
            sum.longest
        ),
    }
}
