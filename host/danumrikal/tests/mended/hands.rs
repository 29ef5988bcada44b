//! What a power loss leaves of a pool, and copies that other hands make of it,
//! right and wrong.

use reference::layout::{
    bitmap_word_at, set_next, set_previous, set_word, ClassRecord, Header, PageNo, PageRecord,
    Peak, CLASS_PAGE, TAKEN_FIRST,
};
use reference::{alloc_sound, broken_rule, free_sound, live_blocks, Class, Layout};
use support::Rng;

fn layout(pool: &[u8]) -> Layout {
    Layout::of(pool).expect("a pool")
}

fn pages(pool: &[u8]) -> impl Iterator<Item = PageNo> {
    (0..layout(pool).pages).map(PageNo)
}

/// Some page of those that suit, and its record.
fn some_page(
    rng: &mut Rng,
    pool: &[u8],
    suits: impl Fn(PageNo, &PageRecord) -> bool,
) -> Option<(PageNo, PageRecord)> {
    let records = pages(pool).map(|page| (page, PageRecord::read(pool, layout(pool), page)));
    let suiting: Vec<_> = records
        .filter(|(page, record)| suits(*page, record))
        .collect();
    (!suiting.is_empty()).then(|| rng.pick(&suiting))
}

/// Loses fields that tell no live block: one in some, or all of them.
pub fn lose(rng: &mut Rng, pool: &mut [u8]) {
    let layout = layout(pool);
    let rate = rng.pick(&[1, 2, 10, 60]);
    let mut other = |number: u32| match rng.below(5) {
        _ if !rng.once_in(rate) => number,
        0 => PageNo::NONE.0,
        1 => number.wrapping_add(1),
        2 => number.wrapping_sub(1),
        3 => rng.below(u64::from(layout.pages) + 1) as u32,
        _ => rng.word() as u32,
    };
    let header = Header::read(pool);
    Header {
        free: other(header.free),
        first: PageNo(other(header.first.0)),
        ..header
    }
    .write(pool);
    for class in Class::all() {
        let record = ClassRecord::read(pool, layout, class);
        ClassRecord {
            first: PageNo(other(record.first.0)),
            used: other(record.used),
            total: other(record.total),
            reqs: other(record.reqs),
            fails: other(record.fails),
            peak: record.peak.map(|peak| Peak {
                most: other(peak.most),
                zeros: u64::from(other(0)) << 8 | u64::from(other(0) & 255),
            }),
        }
        .write(pool, layout, class);
    }
    for page in pages(pool) {
        let record = PageRecord::read(pool, layout, page);
        PageRecord {
            next: PageNo(other(record.next.0)),
            previous: PageNo(other(record.previous.0)),
            zeros: other(0),
            ..record
        }
        .write(pool, layout, page);
    }
}

/// Changes a pool in one respect, and tells whether it could.
pub type Change = fn(&mut Rng, &mut Vec<u8>) -> bool;

/// Damages to what tells live blocks: each is beyond mending.
pub const SPOILS: [(&str, Change); 13] = [
    ("a shift", |rng, pool| {
        let bit = rng.below(8);
        pool[1] ^= 1 << bit;
        true
    }),
    ("the page count", |rng, pool| {
        let bit = rng.below(8);
        pool[rng.pick(&[2, 3])] ^= 1 << bit;
        true
    }),
    ("no kind", |rng, pool| {
        let kind = rng.pick(&[5, 6, 7]);
        change_page(rng, pool, |_| true, |record| record.kind = kind)
    }),
    ("a taken run for a free one", |rng, pool| {
        let first = |record: &PageRecord| record.kind == TAKEN_FIRST && record.run > 1;
        change_page(rng, pool, first, |record| record.kind = 1)
    }),
    ("a page inside a run for its first", |rng, pool| {
        let inside = |record: &PageRecord| matches!(record.kind, 0 | 4);
        let first = |kind| if kind == 0 { 1 } else { 3 };
        change_page(rng, pool, inside, |record| record.kind = first(record.kind))
    }),
    ("no class", |rng, pool| {
        let class = 9 + rng.below(7) as u32;
        change_page(rng, pool, is_class_page, |record| record.class = class)
    }),
    ("a class without a class page", |rng, pool| {
        let class = 1 + rng.below(15) as u32;
        let other = |record: &PageRecord| !is_class_page(record);
        change_page(rng, pool, other, |record| record.class = class)
    }),
    ("a run length", |rng, pool| {
        let more = rng.once_in(2);
        change_page(
            rng,
            pool,
            |record| record.run > 0,
            |record| record.run = record.run + u32::from(more) * 2 - 1,
        )
    }),
    ("a run length without a run", |rng, pool| {
        let run = 1 + rng.below(9) as u32;
        let none = |record: &PageRecord| record.run == 0;
        change_page(rng, pool, none, |record| record.run = run)
    }),
    ("a map field without a map", |rng, pool| {
        let bit = rng.below(64);
        let without = |record: &PageRecord| !is_class_page(record) || record.class < 3;
        change_page(rng, pool, without, |record| record.bitmap ^= 1 << bit)
    }),
    ("a stray bit of a map", |rng, pool| {
        let bit = rng.below(32);
        let short = |record: &PageRecord| is_class_page(record) && record.class > 3;
        change_page(rng, pool, short, |record| record.bitmap ^= 1 << bit)
    }),
    ("a mark of a map's own chunks", |rng, pool| {
        let small = |_: PageNo, record: &PageRecord| is_class_page(record) && record.class < 3;
        let Some((page, record)) = some_page(rng, pool, small) else {
            return false;
        };
        let own = [8, 2, 1][record.class as usize];
        let map = layout(pool).page_at(page);
        pool[map] &= !(0x80 >> rng.below(own));
        true
    }),
    ("every mark of a class page", |rng, pool| {
        let Some((page, record)) = some_page(rng, pool, |_, record| is_class_page(record)) else {
            return false;
        };
        let class = Class::new(record.class).expect("a class");
        let map = layout(pool).bitmap_at(page, class);
        set_word(pool, map, class.own_word());
        for index in 1..class.bitmap_words() {
            set_word(pool, bitmap_word_at(map, index), 0);
        }
        true
    }),
];

fn is_class_page(record: &PageRecord) -> bool {
    record.kind == CLASS_PAGE
}

/// Changes the record of some page that suits, where there is one.
fn change_page(
    rng: &mut Rng,
    pool: &mut [u8],
    suits: impl Fn(&PageRecord) -> bool,
    change: impl Fn(&mut PageRecord),
) -> bool {
    let Some((page, mut record)) = some_page(rng, pool, |_, record| suits(record)) else {
        return false;
    };
    change(&mut record);
    record.write(pool, layout(pool), page);
    true
}

/// A sound copy by another hand: lists in any order, any asks and failures, and
/// any peaks that are not below used.
pub fn another_hand(rng: &mut Rng, damaged: &[u8]) -> Vec<u8> {
    let mut copy = vec![0; damaged.len()];
    reference::mend(damaged, &mut copy).expect("not beyond mending");
    let layout = layout(&copy);
    let mut header = Header::read(&copy);
    header.first = shuffled(rng, &mut copy, layout, header.first);
    header.write(&mut copy);
    for class in Class::all() {
        let mut record = ClassRecord::read(&copy, layout, class);
        record.first = shuffled(rng, &mut copy, layout, record.first);
        (record.reqs, record.fails) = (rng.word() as u32, rng.word() as u32);
        if let Some(peak) = &mut record.peak {
            peak.most = record.used + rng.below(1_000) as u32;
        }
        record.write(&mut copy, layout, class);
    }
    assert_eq!(broken_rule(&copy), 0);
    copy
}

/// Puts a list into any order, and answers its first page.
fn shuffled(rng: &mut Rng, pool: &mut [u8], layout: Layout, first: PageNo) -> PageNo {
    let mut list = vec![PageNo::NONE];
    let mut page = first;
    while page != PageNo::NONE {
        let place = rng.below(list.len() as u64) as usize;
        list.insert(place, page);
        page = PageRecord::read(pool, layout, page).next;
    }
    let mut previous = PageNo::NONE;
    for pair in list.windows(2) {
        set_previous(pool, layout, pair[0], previous);
        set_next(pool, layout, pair[0], pair[1]);
        previous = pair[0];
    }
    list[0]
}

/// Changes to an accepted copy, and the number that it then earns.
pub const WRONGS: [(&str, u8, Change); 18] = [
    ("a byte shorter", 12, |_, copy| copy.pop().is_some()),
    ("a byte longer", 12, |_, copy| {
        copy.push(0);
        true
    }),
    ("the other edition", 12, |_, copy| {
        copy[0] ^= 3;
        true
    }),
    ("no edition", 12, |_, copy| {
        copy[0] ^= 0x80;
        true
    }),
    ("another page count", 3, |_, copy| {
        copy[3] ^= 1;
        true
    }),
    ("a zero bit", 3, |rng, copy| {
        let bit = rng.below(9);
        change_page(rng, copy, |_| true, |record| record.zeros = 1 << bit)
    }),
    ("a next that leads elsewhere", 3, |rng, copy| {
        let next = rng.below(u64::from(layout(copy).pages)) as u32;
        let other = |record: &PageRecord| record.next.0 != next;
        change_page(rng, copy, other, |record| record.next = PageNo(next))
    }),
    ("a previous that leads elsewhere", 3, |rng, copy| {
        let back = rng.below(u64::from(layout(copy).pages)) as u32;
        let other = |record: &PageRecord| record.previous.0 != back;
        change_page(rng, copy, other, |record| record.previous = PageNo(back))
    }),
    ("no first free run", 3, |_, copy| {
        let header = Header::read(copy);
        let listed = header.first != PageNo::NONE;
        let first = PageNo::NONE;
        Header { first, ..header }.write(copy);
        listed
    }),
    ("free pages", 3, |_, copy| {
        copy[5] ^= 1;
        true
    }),
    ("a class's used", 3, |rng, copy| {
        let class = rng.pick(&Class::all().collect::<Vec<_>>());
        let layout = layout(copy);
        let mut record = ClassRecord::read(copy, layout, class);
        record.used += 1;
        record.write(copy, layout, class);
        true
    }),
    ("a class page without a block", 3, |rng, copy| {
        SPOILS[12].1(rng, copy)
    }),
    ("one block more", 14, |rng, copy| {
        alloc_sound(copy, 8 << rng.below(11)).is_ok()
    }),
    ("one block less", 14, |rng, copy| {
        let live: Vec<_> = live_blocks(copy).unwrap_or_default().into_keys().collect();
        !live.is_empty() && free_sound(copy, rng.pick(&live)).is_ok()
    }),
    ("a chunk elsewhere in its page", 14, |rng, copy| {
        let open = |record: &PageRecord| is_class_page(record) && movable(record).is_some();
        change_page(rng, copy, open, |record| {
            let (taken, free) = movable(record).expect("an open page");
            record.bitmap ^= taken | free;
        })
    }),
    ("a taken run in two", 14, |rng, copy| {
        let long = |_: PageNo, record: &PageRecord| record.kind == TAKEN_FIRST && record.run > 1;
        let Some((page, record)) = some_page(rng, copy, long) else {
            return false;
        };
        let layout = layout(copy);
        let left = 1 + rng.below(u64::from(record.run) - 1) as u32;
        let second = page.plus(left);
        for (page, run) in [(page, left), (second, record.run - left)] {
            PageRecord { run, ..record }.write(copy, layout, page);
        }
        true
    }),
    ("a byte that is a caller's", 14, |rng, copy| {
        let Some((page, _)) = some_page(rng, copy, |_, record| !is_class_page(record)) else {
            return false;
        };
        let at = layout(copy).page_at(page) + rng.below(4_096) as usize;
        copy[at] ^= 1 << rng.below(8);
        true
    }),
    ("a byte of the tail", 14, |rng, copy| {
        let tail = layout(copy).page_at(PageNo(layout(copy).pages));
        if tail == copy.len() {
            return false;
        }
        let at = tail + rng.below((copy.len() - tail) as u64) as usize;
        copy[at] ^= 1 << rng.below(8);
        true
    }),
];

/// A taken and a free chunk of a page that keeps its map in the record.
fn movable(record: &PageRecord) -> Option<(u64, u64)> {
    let class = Class::new(record.class).filter(|class| !class.bitmap_in_page())?;
    let free = !record.bitmap & class.full_word();
    let lowest = |marks: u64| marks & marks.wrapping_neg();
    (free != 0).then(|| (lowest(record.bitmap), lowest(free)))
}
