//! Mended pools, read as literally as `literal.rs` reads the rules.

use std::collections::BTreeSet;

use crate::bits;
use crate::literal::{
    broken_rule, class_pages_are_used, fields_are_as_described, pages_divide, read, Page, CHUNKS,
    NONE, OWN,
};
use support::{Edition, TWO};

/// Edition and pages of a pool whose header constants, page count, kinds,
/// classes, run lengths and maps satisfy rules 1, 2 and 5.
fn good_parts(bytes: &[u8]) -> Option<(Edition, Vec<Page>)> {
    read(bytes).filter(|(_, pages)| {
        pages_divide(pages) && fields_are_as_described(pages) && class_pages_are_used(pages)
    })
}

/// The live blocks: offset, whether a run, and class or page count.
fn blocks(pages: &[Page]) -> BTreeSet<(usize, bool, usize)> {
    let mut blocks = BTreeSet::new();
    for (number, page) in pages.iter().enumerate() {
        let start = 4_096 * number;
        if page.kind == 3 {
            blocks.insert((start, true, page.run));
        }
        if page.kind == 2 {
            for chunk in OWN[page.class]..CHUNKS[page.class] {
                if page.marks[chunk] {
                    blocks.insert((start + (8 << page.class) * chunk, false, page.class));
                }
            }
        }
    }
    blocks
}

/// The number that a mended copy earns, or 0.
pub fn checked(damaged: &[u8], mended: &[u8]) -> u8 {
    if damaged.len() != mended.len() || damaged.first() != mended.first() {
        return 12;
    }
    let Some((edition, old)) = good_parts(damaged) else {
        return 13;
    };
    if broken_rule(mended) != 0 {
        return 3;
    }
    let (_, new) = read(mended).expect("a sound pool");
    let first = edition.page_at(old.len(), 0);
    if blocks(&old) != blocks(&new) || damaged[first..] != mended[first..] {
        return 14;
    }
    0
}

/// A mended copy with each list as arranged, which is told its pages in rising
/// order; or the refusal's number.
pub fn mended(
    damaged: &[u8],
    length: usize,
    mut arrange: impl FnMut(&mut [usize]),
) -> Result<Vec<u8>, u8> {
    if length != damaged.len() {
        return Err(12);
    }
    let (edition, pages) = good_parts(damaged).ok_or(13)?;
    let mut bytes = damaged.to_vec();
    let mut set = |at, width, number| bits::set(&mut bytes, at, width, number as u64);
    let record = |page| bits::page_record(edition, page);
    for page in 0..pages.len() {
        set(record(page) + bits::NEXT, 16, NONE);
        set(record(page) + bits::PREVIOUS, 16, NONE);
        set(record(page) + bits::ZEROS, 9, 0);
    }
    let pages_that = |belongs: &dyn Fn(&Page) -> bool| {
        let all = 0..pages.len();
        all.filter(|page| belongs(&pages[*page]))
            .collect::<Vec<_>>()
    };
    let mut list = |head, mut members: Vec<usize>| {
        arrange(&mut members);
        set(head, 16, *members.first().unwrap_or(&NONE));
        for pair in members.windows(2) {
            set(record(pair[0]) + bits::NEXT, 16, pair[1]);
            set(record(pair[1]) + bits::PREVIOUS, 16, pair[0]);
        }
    };
    list(bits::FIRST, pages_that(&|page| page.kind == 1));
    for class in 0..9 {
        let open = |page: &Page| page.kind == 2 && page.class == class && !page.is_full();
        let head = bits::class_record(edition, class) + bits::CLASS_FIRST;
        list(head, pages_that(&open));
    }
    for first in pages_that(&|page| page.kind == 1 && page.run > 1) {
        let last = first + pages[first].run - 1;
        set(record(last) + bits::PREVIOUS, 16, first);
    }
    set(bits::FREE, 16, pages_that(&|page| page.kind < 2).len());
    for class in 0..9 {
        let of_class = pages_that(&|page| page.kind == 2 && page.class == class);
        let used = of_class.iter().map(|page| pages[*page].in_hands()).sum();
        let total = of_class.len() * (CHUNKS[class] - OWN[class]);
        let record = bits::class_record(edition, class);
        set(record + bits::USED, 24, used);
        set(record + bits::TOTAL, 24, total);
        if edition == TWO {
            let old = bits::get(damaged, record + bits::PEAK, 24) as usize;
            set(record + bits::PEAK, 24, old.max(used));
            set(record + bits::PEAK_ZEROS, 40, 0);
        }
    }
    Ok(bytes)
}
