//! Damaged pools, the first rule that each breaks, and what mending makes of
//! them.

use reference::{
    alloc, alloc_sound, broken_rule, check_mended, convert, format, free, free_sound, live_blocks,
    mend, validate, Refusal,
};

#[path = "support/bits.rs"]
mod bits;
#[path = "support/literal.rs"]
mod literal;
#[path = "support/mended.rs"]
mod mended;

use bits::{
    set, CLASS, CLASS_FIRST, EDITION, FAILS, FIRST, FREE, KIND, MAP, MIN_SHIFT, NEXT, PAGES,
    PAGE_SHIFT, PEAK, PEAK_ZEROS, PREVIOUS, REQS, RUN, TOTAL, USED, ZEROS,
};
use support::{Edition, Rng, EDITIONS, ONE, PER_PAGE, TWO};

const NONE: u64 = 65_535;

/// Trials of the random tests, fewer where code runs slowly.
const TRIALS: u64 = if cfg!(debug_assertions) {
    4_000
} else {
    60_000
};

const HEADER_FIELDS: [(usize, usize); 6] = [
    (EDITION, 8),
    (MIN_SHIFT, 4),
    (PAGE_SHIFT, 4),
    (PAGES, 16),
    (FREE, 16),
    (FIRST, 16),
];

/// The last two in edition 2 alone.
const CLASS_FIELDS: [(usize, usize); 7] = [
    (CLASS_FIRST, 16),
    (USED, 24),
    (TOTAL, 24),
    (REQS, 32),
    (FAILS, 32),
    (PEAK, 24),
    (PEAK_ZEROS, 40),
];

const PAGE_FIELDS: [(usize, usize); 7] = [
    (MAP, 64),
    (KIND, 3),
    (CLASS, 4),
    (RUN, 16),
    (NEXT, 16),
    (PREVIOUS, 16),
    (ZEROS, 9),
];

/// A record of a pool.
#[derive(Clone, Copy, Debug)]
enum Record {
    Header,
    Class(usize),
    Page(usize),
}

use Record::{Class, Header, Page};

impl Record {
    /// The bit at which it begins.
    fn at(self, edition: Edition) -> usize {
        match self {
            Header => 0,
            Class(class) => bits::class_record(edition, class),
            Page(page) => bits::page_record(edition, page),
        }
    }

    /// Its fields: the bits before each, and its width.
    fn fields(self, edition: Edition) -> &'static [(usize, usize)] {
        match self {
            Header => &HEADER_FIELDS,
            Class(_) if edition == ONE => &CLASS_FIELDS[..5],
            Class(_) => &CLASS_FIELDS,
            Page(_) => &PAGE_FIELDS,
        }
    }
}

/// Puts a number into a field of a pool that still has its edition.
fn put(bytes: &mut [u8], record: Record, above: usize, width: usize, number: u64) {
    let edition = EDITIONS[usize::from(bytes[0]) - 1];
    set(bytes, record.at(edition) + above, width, number);
}

/// Sixteen pages with something of every kind:
///
/// - 0: class 8, one chunk; 1: class 64, one chunk; 2 and 3: a taken run;
/// - 4: class 2,048, full; 5 and 6: class 1,024, listed in this order;
/// - 7: a free run of one; 8: a taken run of one; 9 to 15: a free run. The
///   free-run list is 7, then 9.
fn fixture(edition: Edition) -> Vec<u8> {
    let mut bytes = vec![0xA5; edition.length(16) + 9];
    assert_eq!(format(&mut bytes, edition.number), Ok(16));
    for size in [
        8, 64, 5_000, 2_048, 2_048, 1_024, 1_024, 1_024, 1_024, 1_024,
    ] {
        alloc(&mut bytes, size).unwrap();
    }
    for page in 7..10 {
        assert_eq!(alloc(&mut bytes, 4_096), Ok(page * 4_096));
    }
    for offset in [5 * 4_096 + 1_024, 9 * 4_096, 7 * 4_096] {
        free(&mut bytes, offset).unwrap();
    }
    assert_eq!(broken_rule(&bytes), 0);
    assert_eq!(literal::broken_rule(&bytes), 0);
    bytes
}

/// The pool breaks this rule first, and then no call changes it.
fn assert_breaks(bytes: &mut [u8], rule: u8, what: &str) {
    assert_eq!(broken_rule(bytes), rule, "{what}");
    assert_eq!(literal::broken_rule(bytes), rule, "{what}, literally");
    assert_eq!(validate(bytes), rule == 0, "{what}");
    assert_eq!(live_blocks(bytes).is_some(), rule == 0, "{what}");
    if rule != 0 {
        let before = bytes.to_vec();
        for number in [0, 64, 4_096, u32::MAX] {
            assert_eq!(alloc(bytes, number), Err(Refusal::NotSound), "{what}");
            assert_eq!(free(bytes, number), Err(Refusal::NotSound), "{what}");
        }
        assert!(bytes == before, "{what}");
    }
    assert_mends(bytes, what);
}

/// The bytes are mended as literally read, and the copy is accepted, or refused
/// with 13. Answers that number, or 0.
fn assert_mends(damaged: &[u8], what: &str) -> u8 {
    let mut target = vec![0x5A; damaged.len()];
    let answer = mend(damaged, &mut target).map_err(|refusal| refusal.number());
    assert_checks(damaged, damaged, what);
    assert_checks(damaged, &target, what);
    match mended::mended(damaged, target.len(), |_| ()) {
        Ok(bytes) => {
            let pages = bits::get(damaged, PAGES, 16) as u32;
            assert_eq!(answer, Ok(pages), "{what}");
            assert!(target == bytes, "{what}");
            assert_eq!(check_mended(damaged, &target), Ok(()), "{what}");
            0
        }
        Err(number) => {
            assert_eq!(answer, Err(number), "{what}");
            assert!(target.iter().all(|byte| *byte == 0x5A), "{what}");
            number
        }
    }
}

/// The copy is accepted or refused as literally read. Answers the number, or 0.
fn assert_checks(damaged: &[u8], copy: &[u8], what: &str) -> u8 {
    let answer = check_mended(damaged, copy).map_err(|refusal| refusal.number());
    let number = mended::checked(damaged, copy);
    assert_eq!(answer.err().unwrap_or(0), number, "{what}");
    number
}

/// Each number put into the field makes the fixture break the rule first, in
/// both editions.
fn breaks(rule: u8, record: Record, above: usize, width: usize, numbers: &[u64]) {
    for edition in EDITIONS {
        breaks_in(edition, rule, record, above, width, numbers);
    }
}

fn breaks_in(
    edition: Edition,
    rule: u8,
    record: Record,
    above: usize,
    width: usize,
    numbers: &[u64],
) {
    for number in numbers {
        let mut bytes = fixture(edition);
        put(&mut bytes, record, above, width, *number);
        let what = format!(
            "edition {}, {record:?}, bit {above}: {number}",
            edition.number
        );
        assert_breaks(&mut bytes, rule, &what);
    }
}

#[test]
fn lengths() {
    for edition in EDITIONS {
        let (head, first) = (edition.head(), edition.number);
        let ends = [
            head - 1,
            head,
            edition.shortest() - 1,
            edition.longest() + 1,
        ];
        for length in [0, 1, 7, 8, 1_100_000].into_iter().chain(ends) {
            for fill in [0, first, 0xFF] {
                let what = format!("{length} bytes of {fill}");
                assert_breaks(&mut vec![fill; length], 1, &what);
            }
        }
        // A tail of up to a page record and a page changes nothing; less than the
        // last page, or room for one more, does.
        let longest = PER_PAGE - 1;
        let tails = [
            (1, 0),
            (1, longest),
            (2, 1),
            (16, longest),
            (4_096, longest),
        ];
        for (pages, tail) in tails {
            let mut bytes = vec![3; edition.length(pages) + tail];
            format(&mut bytes, edition.number).unwrap();
            assert_breaks(&mut bytes, 0, "fresh");
            let whole = bytes.len() - tail;
            assert_breaks(&mut bytes[..whole], 0, "without its tail");
            assert_breaks(&mut bytes[..whole - 1], 1, "cut short");
            bytes.resize(whole + PER_PAGE, 3);
            assert_breaks(&mut bytes, 1, "one page longer");
        }
    }
}

#[test]
fn bytes_that_are_no_pool() {
    let mut rng = Rng::new(1);
    for (edition, pages) in EDITIONS
        .into_iter()
        .flat_map(|e| [1, 2, 12, 256].map(|p| (e, p)))
    {
        let length = edition.length(pages);
        for fill in [0, 1, 2, 0xFF] {
            assert_breaks(&mut vec![fill; length], 1, "all the same");
        }
        let mut bytes = rng.bytes(length);
        assert_breaks(&mut bytes, 1, "random bytes");
        bytes[0] = edition.number;
        assert_breaks(&mut bytes, 1, "random bytes after the edition");
        // Behind a good header.
        for fill in [0, 0xFF] {
            let mut bytes = vec![fill; length];
            let header = 0x3C << 48 | (pages as u64) << 32 | NONE;
            bytes[..8].copy_from_slice(&header.to_be_bytes());
            bytes[0] = edition.number;
            assert_breaks(&mut bytes, 2, "header alone");
        }
    }
}

#[test]
fn header() {
    breaks(1, Header, EDITION, 8, &[0, 3, 129, 255]);
    breaks(1, Header, MIN_SHIFT, 4, &[0, 2, 4, 15]);
    breaks(1, Header, PAGE_SHIFT, 4, &[0, 11, 13, 15]);
    breaks(1, Header, PAGES, 16, &[0, 15, 17, 256, 272, NONE]);
    breaks(6, Header, FREE, 16, &[0, 7, 9, 16, NONE]);
    // Past the head, no head, a taken page, a class page, inside a run, no page.
    breaks(
        3,
        Header,
        FIRST,
        16,
        &[9, NONE, 8, 0, 5, 10, 15, 16, 17, 256, 65_534],
    );
}

#[test]
fn class_records() {
    // Past the head, no head, another class's page, a full page of another
    // class, a free page, a taken page, no page.
    let not_its_head = [6, NONE, 0, 1, 4, 7, 8, 2, 16, 17, 65_534];
    breaks(4, Class(7), CLASS_FIRST, 16, &not_its_head);
    // A full page on a list.
    breaks(4, Class(8), CLASS_FIRST, 16, &[4, 5, 16]);
    // A list without pages, and one that two classes share.
    breaks(4, Class(1), CLASS_FIRST, 16, &[0, 5, 7, 16, 65_534]);

    breaks(6, Class(7), USED, 24, &[0, 3, 5, 0xFF_FFFF]);
    breaks(6, Class(7), TOTAL, 24, &[0, 4, 7, 9, 0xFF_FFFF]);
    breaks(6, Class(0), USED, 24, &[0, 2, 9]);
    breaks(6, Class(0), TOTAL, 24, &[0, 503, 505, 512]);
    breaks(6, Class(1), USED, 24, &[1]);
    breaks(6, Class(1), TOTAL, 24, &[1, 254]);
    for class in 0..9 {
        breaks(0, Class(class), REQS, 32, &[0, 77, 0xFFFF_FFFF]);
        breaks(0, Class(class), FAILS, 32, &[0, 77, 0xFFFF_FFFF]);
    }
}

/// Peak is at least used, which is 4 in class 7, 1 in class 0 and 0 in class 1,
/// and the 40 bits behind it are 0.
#[test]
fn peaks() {
    breaks_in(TWO, 0, Class(7), PEAK, 24, &[4, 5, 6, 100, 0xFF_FFFF]);
    breaks_in(TWO, 6, Class(7), PEAK, 24, &[0, 1, 2, 3]);
    breaks_in(TWO, 0, Class(0), PEAK, 24, &[1, 2, 504, 0xFF_FFFF]);
    breaks_in(TWO, 6, Class(0), PEAK, 24, &[0]);
    breaks_in(TWO, 0, Class(1), PEAK, 24, &[0, 1, 0xFF_FFFF]);
    let mut bits: Vec<u64> = (0..40).map(|bit| 1 << bit).collect();
    bits.push(0xFF_FFFF_FFFF);
    for class in 0..9 {
        breaks_in(TWO, 6, Class(class), PEAK_ZEROS, 40, &bits);
    }
    // Rules of a lower number come first.
    let mut bytes = fixture(TWO);
    put(&mut bytes, Class(7), PEAK, 24, 0);
    put(&mut bytes, Page(1), MAP, 64, 0);
    assert_breaks(&mut bytes, 5, "empty page");
}

#[test]
fn kinds() {
    for page in [0, 1, 2, 3, 4, 5, 7, 9, 10, 15] {
        breaks(2, Page(page), KIND, 3, &[5, 6, 7]);
    }
    breaks(2, Page(0), KIND, 3, &[0, 1, 3, 4]);
    breaks(2, Page(2), KIND, 3, &[0, 1, 2, 4]);
    breaks(2, Page(3), KIND, 3, &[0, 1, 2, 3]);
    breaks(2, Page(7), KIND, 3, &[0, 2, 4]);
    breaks(2, Page(9), KIND, 3, &[0, 2, 3, 4]);
    breaks(2, Page(10), KIND, 3, &[1, 2, 3, 4]);
    breaks(2, Page(15), KIND, 3, &[1, 2, 3, 4]);
    // A free run next to others.
    breaks(2, Page(8), KIND, 3, &[1]);
    // A taken page of the free list's, with its links.
    breaks(2, Page(7), KIND, 3, &[3]);
}

#[test]
fn unused_fields() {
    for page in 0..16 {
        let flips: Vec<u64> = (0..9).map(|bit| 1 << bit).collect();
        breaks(2, Page(page), ZEROS, 9, &flips);
        breaks(2, Page(page), ZEROS, 9, &[511]);
    }
    // The map of a class that keeps it in the page, and of other kinds.
    for page in [0, 2, 3, 7, 8, 9, 10, 15] {
        let flips: Vec<u64> = (0..64).map(|bit| 1 << bit).collect();
        breaks(2, Page(page), MAP, 64, &flips);
    }
    for page in [2, 3, 7, 8, 9, 10, 15] {
        breaks(2, Page(page), CLASS, 4, &[1, 2, 8, 9, 15]);
    }
    for page in [0, 1, 3, 4, 5, 10, 15] {
        breaks(2, Page(page), RUN, 16, &[1, 2, NONE]);
    }
    for page in [2, 3, 8, 10, 14, 15] {
        breaks(2, Page(page), NEXT, 16, &[0, 3, 9, 16, 65_534]);
    }
    for page in [2, 3, 8, 10, 14] {
        breaks(2, Page(page), PREVIOUS, 16, &[0, 2, 9, 16, 65_534]);
    }
    // The last page of a free run leads to its first.
    breaks(2, Page(15), PREVIOUS, 16, &[NONE, 7, 10, 14, 15, 16]);
}

#[test]
fn runs() {
    breaks(2, Page(2), RUN, 16, &[0, 1, 3, 14, 15, NONE]);
    breaks(2, Page(7), RUN, 16, &[0, 2, 9, 10, NONE]);
    breaks(2, Page(8), RUN, 16, &[0, 2, 8, 9, NONE]);
    breaks(2, Page(9), RUN, 16, &[0, 1, 6, 8, NONE]);

    for edition in EDITIONS {
        let mut bytes = fixture(edition);
        put(&mut bytes, Page(9), RUN, 16, 3);
        put(&mut bytes, Page(11), PREVIOUS, 16, 9);
        put(&mut bytes, Page(12), KIND, 3, 1);
        put(&mut bytes, Page(12), RUN, 16, 4);
        put(&mut bytes, Page(15), PREVIOUS, 16, 12);
        assert_breaks(&mut bytes, 2, "free runs that touch");
    }
}

#[test]
fn free_run_list() {
    breaks(3, Page(7), NEXT, 16, &[7, 5, 8, 10, 16, 65_534, NONE]);
    breaks(3, Page(7), PREVIOUS, 16, &[7, 9, 5, 16, 65_534]);
    breaks(3, Page(9), NEXT, 16, &[9, 7, 5, 15, 16, 65_534]);
    breaks(3, Page(9), PREVIOUS, 16, &[NONE, 9, 8, 16, 65_534]);

    for edition in EDITIONS {
        // The taken run becomes a free one that no list holds.
        let mut bytes = fixture(edition);
        put(&mut bytes, Page(2), KIND, 3, 1);
        put(&mut bytes, Page(3), KIND, 3, 0);
        put(&mut bytes, Page(3), PREVIOUS, 16, 2);
        assert_breaks(&mut bytes, 3, "a free run off the list");
        // Put on the list, it only makes the free pages wrong.
        put(&mut bytes, Page(9), NEXT, 16, 2);
        put(&mut bytes, Page(2), PREVIOUS, 16, 9);
        assert_breaks(&mut bytes, 6, "free pages off by two");
        put(&mut bytes, Header, FREE, 16, 10);
        assert_breaks(&mut bytes, 0, "mended");
        // Two lists in one: 7 and 9 lead to each other, the head stands apart.
        put(&mut bytes, Header, FIRST, 16, 2);
        put(&mut bytes, Page(2), PREVIOUS, 16, NONE);
        put(&mut bytes, Page(7), PREVIOUS, 16, 9);
        put(&mut bytes, Page(9), NEXT, 16, 7);
        assert_breaks(&mut bytes, 3, "a ring off the list");
        // All three in a ring.
        put(&mut bytes, Page(2), NEXT, 16, 7);
        put(&mut bytes, Page(7), PREVIOUS, 16, 2);
        put(&mut bytes, Page(2), PREVIOUS, 16, 9);
        put(&mut bytes, Page(9), NEXT, 16, 2);
        assert_breaks(&mut bytes, 3, "a ring");

        let mut bytes = fixture(edition);
        put(&mut bytes, Header, FIRST, 16, 9);
        put(&mut bytes, Page(9), NEXT, 16, 7);
        put(&mut bytes, Page(9), PREVIOUS, 16, NONE);
        put(&mut bytes, Page(7), NEXT, 16, NONE);
        put(&mut bytes, Page(7), PREVIOUS, 16, 9);
        assert_breaks(&mut bytes, 0, "another order");
    }
}

#[test]
fn class_lists() {
    breaks(4, Page(5), NEXT, 16, &[5, NONE, 0, 4, 7, 16, 65_534]);
    breaks(4, Page(5), PREVIOUS, 16, &[5, 6, 0, 16, 65_534]);
    breaks(4, Page(6), NEXT, 16, &[6, 5, 0, 4, 7, 16, 65_534]);
    breaks(4, Page(6), PREVIOUS, 16, &[NONE, 6, 0, 16, 65_534]);
    for page in [0, 1] {
        let links = [0, 1, 5, 7, 16, 65_534];
        breaks(4, Page(page), NEXT, 16, &links);
        breaks(4, Page(page), PREVIOUS, 16, &links);
    }
    // A full page has no links.
    breaks(4, Page(4), NEXT, 16, &[0, 4, 5, 16, 65_534]);
    breaks(4, Page(4), PREVIOUS, 16, &[0, 4, 5, 16, 65_534]);
    // A page of another class than its list's; the first rule it breaks may
    // also be that its map does not suit the class.
    breaks(4, Page(0), CLASS, 4, &[1, 2, 3, 8]);
    breaks(4, Page(1), CLASS, 4, &[4, 8]);
    breaks(2, Page(1), CLASS, 4, &[9, 15, 0, 1, 2]);
    breaks(4, Page(4), CLASS, 4, &[3, 7]);
    breaks(4, Page(5), CLASS, 4, &[3, 6]);
    breaks(2, Page(5), CLASS, 4, &[0, 8, 9, 15]);
    // A page full by its map stays off its list, an open one is on it.
    breaks(4, Page(1), MAP, 64, &[u64::MAX]);
    breaks(4, Page(4), MAP, 64, &[1 << 63, 1 << 62, 0]);
    breaks(4, Page(5), MAP, 64, &[0b1111 << 60]);

    for edition in EDITIONS {
        // A full page alone on its list, in the place of an open one.
        let mut bytes = vec![0; edition.length(2)];
        format(&mut bytes, edition.number).unwrap();
        for _ in 0..3 {
            alloc(&mut bytes, 2_048).unwrap();
        }
        put(&mut bytes, Class(8), CLASS_FIRST, 16, 0);
        assert_breaks(&mut bytes, 4, "the full page instead of the open one");
        put(&mut bytes, Page(0), NEXT, 16, 1);
        put(&mut bytes, Page(1), PREVIOUS, 16, 0);
        assert_breaks(&mut bytes, 4, "the full page before the open one");
    }
}

#[test]
fn maps() {
    // Bits below a short map.
    breaks(2, Page(4), MAP, 64, &[u64::MAX, 0b111 << 61, 3 << 62 | 1]);
    breaks(2, Page(5), MAP, 64, &[0b1011 << 60 | 1 << 59]);
    // The map's own marks, every one of them.
    let owns = [(0, 8), (1, 2), (2, 1)].into_iter();
    for (edition, (class, own)) in owns.flat_map(|own| EDITIONS.map(|e| (e, own))) {
        let mut sound = vec![0; edition.length(1)];
        format(&mut sound, edition.number).unwrap();
        alloc(&mut sound, 8 << class).unwrap();
        let page = edition.page_at(1, 0);
        let map = page * 8;
        for chunk in 0..own {
            let mut bytes = sound.clone();
            set(&mut bytes, map + chunk, 1, 0);
            assert_breaks(&mut bytes, 2, "an own mark cleared");
        }
        let mut bytes = sound.clone();
        set(&mut bytes, map + own, 1, 0);
        assert_breaks(&mut bytes, 5, "no chunk in a caller's hands");
        for chunk in own + 1..512 >> class {
            let mut bytes = sound.clone();
            set(&mut bytes, map + chunk, 1, 1);
            assert_breaks(&mut bytes, 6, "a mark too many");
        }
        let mut bytes = sound.clone();
        let bytes_of_map = 64 >> class;
        bytes[page..][..bytes_of_map].fill(0xFF);
        assert_breaks(&mut bytes, 4, "a full page on a list");
        // The byte after the map is a caller's.
        let mut bytes = sound.clone();
        bytes[page + bytes_of_map] = 0xFF;
        assert_breaks(&mut bytes, 0, "a caller's byte");
    }
    // An empty class page breaks 5 even when the counts agree with it.
    breaks(5, Page(1), MAP, 64, &[0]);
    for edition in EDITIONS {
        let mut bytes = fixture(edition);
        put(&mut bytes, Page(1), MAP, 64, 0);
        put(&mut bytes, Class(3), USED, 24, 0);
        assert_breaks(&mut bytes, 5, "an empty class page");
    }
    breaks(6, Page(1), MAP, 64, &[3 << 62, 1 << 63 | 1]);
    breaks(0, Page(1), MAP, 64, &[1, 1 << 40]);
}

/// The record of a page numbered P would begin where the first page does, so a
/// caller can write there what looks like one.
#[test]
fn forged_records_past_the_last_page() {
    for edition in EDITIONS {
        let sound = || {
            let mut bytes = vec![0; edition.length(3)];
            format(&mut bytes, edition.number).unwrap();
            assert_eq!(alloc(&mut bytes, 4_096), Ok(0));
            bytes
        };
        let forge = |bytes: &mut [u8], kind, class, run, previous| {
            let at = Page(3).at(edition);
            assert_eq!(at, edition.page_at(3, 0) * 8);
            set(bytes, at + MAP, 64, if kind == 2 { 1 << 63 } else { 0 });
            set(bytes, at + KIND, 3, kind);
            set(bytes, at + CLASS, 4, class);
            set(bytes, at + RUN, 16, run);
            set(bytes, at + NEXT, 16, NONE);
            set(bytes, at + PREVIOUS, 16, previous);
            set(bytes, at + ZEROS, 9, 0);
            assert_eq!(broken_rule(bytes), 0);
        };

        let mut bytes = sound();
        forge(&mut bytes, 1, 0, 1, NONE);
        put(&mut bytes, Header, FIRST, 16, 3);
        assert_breaks(&mut bytes, 3, "a forged free run as the head");

        let mut bytes = sound();
        assert_eq!(alloc(&mut bytes, 64), Ok(4_096));
        forge(&mut bytes, 2, 3, 0, NONE);
        put(&mut bytes, Class(3), CLASS_FIRST, 16, 3);
        assert_breaks(&mut bytes, 4, "a forged class page as the head");

        let mut bytes = sound();
        forge(&mut bytes, 0, 0, 0, 1);
        put(&mut bytes, Page(1), RUN, 16, 3);
        put(&mut bytes, Page(2), PREVIOUS, 16, NONE);
        assert_breaks(&mut bytes, 2, "a free run past the last page");

        let mut bytes = sound();
        assert_eq!(alloc(&mut bytes, 8_192), Ok(4_096));
        forge(&mut bytes, 4, 0, 0, NONE);
        put(&mut bytes, Page(1), RUN, 16, 3);
        assert_breaks(&mut bytes, 2, "a taken run past the last page");
    }
}

#[test]
fn rules_are_tried_in_order() {
    for edition in EDITIONS {
        // From the last rule to the first, each damage hides those before it.
        let mut bytes = fixture(edition);
        put(&mut bytes, Header, FREE, 16, 0);
        assert_breaks(&mut bytes, 6, "counts");
        put(&mut bytes, Page(1), MAP, 64, 0);
        assert_breaks(&mut bytes, 5, "empty page");
        put(&mut bytes, Page(4), NEXT, 16, 0);
        assert_breaks(&mut bytes, 4, "class list");
        put(&mut bytes, Header, FIRST, 16, 16);
        assert_breaks(&mut bytes, 3, "free-run list");
        put(&mut bytes, Page(15), ZEROS, 9, 1);
        assert_breaks(&mut bytes, 2, "field");
        put(&mut bytes, Header, EDITION, 8, 3);
        assert_breaks(&mut bytes, 1, "edition");
    }
}

#[test]
fn every_field_with_every_telling_number() {
    for edition in EDITIONS {
        let sound = fixture(edition);
        let pages = (0..16).map(Page);
        let records = [Header].into_iter().chain((0..9).map(Class)).chain(pages);
        let mut broken = [0; 7];
        for record in records {
            for &(above, width) in record.fields(edition) {
                let at = record.at(edition) + above;
                let old = bits::get(&sound, at, width);
                let largest = u64::MAX >> (64 - width);
                let mut numbers: Vec<u64> = (0..=18).chain([255, 256, 257, 65_534]).collect();
                numbers.extend((0..width).map(|bit| old ^ 1 << bit));
                numbers.extend([old.wrapping_sub(1), old.wrapping_add(1), largest]);
                for number in numbers.into_iter().filter(|number| *number <= largest) {
                    let mut bytes = sound.clone();
                    set(&mut bytes, at, width, number);
                    let rule = broken_rule(&bytes);
                    let expected = literal::broken_rule(&bytes);
                    let what = format!("{edition:?}, {record:?}, {above}: {number}");
                    assert_eq!(rule, expected, "{what}");
                    broken[rule as usize] += 1;
                    let mended = assert_mends(&bytes, &what);
                    if !tells_blocks(record, above) {
                        assert_eq!(mended, 0, "{what}");
                    }
                }
            }
        }
        assert!(broken.iter().all(|count| *count > 0), "{broken:?}");
    }
}

/// Whether live blocks depend on a field.
fn tells_blocks(record: Record, above: usize) -> bool {
    match record {
        Header => ![FREE, FIRST].contains(&above),
        Class(_) => false,
        Page(_) => ![NEXT, PREVIOUS, ZEROS].contains(&above),
    }
}

/// What is lost at once, in records that tell no block, is mended, and nothing
/// of it is seen in the copy but asks, failures and peaks.
#[test]
fn all_that_tells_no_block_is_mended() {
    let mut rng = Rng::new(5);
    for edition in EDITIONS {
        let sound = fixture(edition);
        let mut whole = sound.clone();
        assert_eq!(mend(&sound, &mut whole), Ok(16));
        for _ in 0..100 {
            let pages = (0..16).map(Page);
            let records = [Header].into_iter().chain((0..9).map(Class)).chain(pages);
            let mut damaged = sound.clone();
            let mut expected = whole.clone();
            for record in records {
                for &(above, width) in record.fields(edition) {
                    if tells_blocks(record, above) {
                        continue;
                    }
                    let number = rng.word() >> (64 - width);
                    put(&mut damaged, record, above, width, number);
                    let used = |class| bits::get(&sound, Class(class).at(edition) + USED, 24);
                    match (record, above) {
                        (Class(_), REQS | FAILS) => {
                            put(&mut expected, record, above, width, number)
                        }
                        (Class(class), PEAK) => {
                            let peak = number.max(used(class));
                            put(&mut expected, record, above, width, peak);
                        }
                        _ => {}
                    }
                }
            }
            let mut target = rng.bytes(damaged.len());
            assert_eq!(mend(&damaged, &mut target), Ok(16));
            assert!(target == expected);
            assert_mends(&damaged, "all fields that tell no block");
        }
    }
}

/// 12 comes before 13, in both calls.
#[test]
fn lengths_and_editions_of_mended_copies() {
    let sound = fixture(ONE);
    let zeros = vec![0; sound.len()];
    for damaged in [&sound[..], &zeros, &[1], &[]] {
        for length in [0, 1, 2, sound.len() - 1, sound.len(), sound.len() + 1] {
            let mut target = vec![0x5A; length];
            let answer = mend(damaged, &mut target).map_err(|refusal| refusal.number());
            let due = mended::mended(damaged, length, |_| ());
            assert_eq!(answer.err(), due.err(), "{length}");
            assert_eq!(answer == Err(12), length != damaged.len(), "{length}");
            if answer.is_err() {
                assert!(target.iter().all(|byte| *byte == 0x5A), "{length}");
            }
            let number = assert_checks(damaged, &target, "any bytes");
            let unequal = length != damaged.len() || damaged.first() != target.first();
            assert_eq!(number == 12, unequal, "{length}");
        }
    }
    for (old, new) in (0..=3).flat_map(|old| [0, 1, 2, 3].map(|new| (old, new))) {
        let [damaged, copy] = [old, new].map(|edition| {
            let mut bytes = sound.clone();
            bytes[0] = edition;
            bytes
        });
        let due = match (old, new) {
            (1, 1) => 0,
            _ if old == new => 13,
            _ => 12,
        };
        assert_eq!(assert_checks(&damaged, &copy, "editions"), due);
    }
    assert_eq!(assert_checks(&[], &[], "nothing at all"), 13);
}

/// A sound pool of a few pages after some random calls.
fn random_pool(rng: &mut Rng, edition: Edition) -> Vec<u8> {
    let pages = 1 + rng.below(9);
    let mut bytes = vec![0; edition.length(pages as usize)];
    format(&mut bytes, edition.number).unwrap();
    let mut live = Vec::new();
    for _ in 0..rng.below(40) {
        if live.is_empty() || !rng.once_in(3) {
            let size = [8, 16, 32, 64, 256, 1_024, 2_048, 4_096, 8_192][rng.below(9) as usize];
            live.extend(alloc(&mut bytes, size));
        } else {
            let index = rng.below(live.len() as u64) as usize;
            free(&mut bytes, live.swap_remove(index)).unwrap();
        }
    }
    bytes
}

/// Changes one field of a record, one mark inside a page, or links two pages.
fn damage(rng: &mut Rng, edition: Edition, bytes: &mut [u8]) {
    let pages = (bytes.len() - edition.head()) / PER_PAGE;
    let page = rng.below(pages as u64) as usize;
    let record = match rng.below(12) {
        0 => Header,
        1 | 2 => Class(rng.below(9) as usize),
        3 => {
            let mark = edition.page_at(pages, page) * 8 + rng.below(512) as usize;
            return set(bytes, mark, 1, rng.below(2));
        }
        4 => {
            // Links that agree with each other, crossing lists or closing rings.
            let next = rng.below(pages as u64);
            set(bytes, Page(page).at(edition) + NEXT, 16, next);
            let previous = Page(next as usize).at(edition) + PREVIOUS;
            return set(bytes, previous, 16, page as u64);
        }
        _ => Page(page),
    };
    let (above, width) = rng.pick(record.fields(edition));
    let at = record.at(edition) + above;
    let old = bits::get(bytes, at, width);
    let number = match rng.below(7) {
        0 => 0,
        1 => NONE,
        2 => old.wrapping_add(1),
        3 => old.wrapping_sub(1),
        4 => rng.below(pages as u64 + 2),
        5 => old ^ 1 << rng.below(width as u64),
        _ => rng.word(),
    };
    set(bytes, at, width, number);
}

/// The bytes are converted as literally read, into a target of a length that
/// often suits, or refused.
fn assert_converts(rng: &mut Rng, source: &[u8], what: &str) {
    let length = match rng.below(4) {
        0 => TWO.length(rng.below(12) as usize) - rng.below(2) as usize,
        _ => source.len() + 72 - rng.below(2) as usize,
    };
    let mut target = rng.bytes(length);
    let before = target.clone();
    let expected = literal::converted(source, &target);
    let answer = convert(source, &mut target).map_err(|refusal| refusal.number());
    match expected {
        Ok(bytes) => {
            assert_eq!(answer, Ok(u32::from(source[3])), "{what}");
            assert!(target == bytes, "{what}");
            assert_eq!(broken_rule(&target), 0, "{what}");
            assert_eq!(live_blocks(&target), live_blocks(source), "{what}");
        }
        Err(number) => {
            assert_eq!(answer, Err(number), "{what}");
            assert!(target == before, "{what}");
        }
    }
}

#[test]
fn random_conversions() {
    let mut rng = Rng::new(4);
    for trial in 0..TRIALS / 10 {
        let mut source = random_pool(&mut rng, ONE);
        let tail = rng.below(PER_PAGE as u64) as usize;
        source.extend(rng.bytes(tail));
        assert_converts(&mut rng, &source, &format!("trial {trial}"));
    }
}

/// A copy that another hand mended, lists in any order, or one that is wrong.
fn copy(rng: &mut Rng, damaged: &[u8]) -> Vec<u8> {
    let shuffled = mended::mended(damaged, damaged.len(), |list| {
        for place in (1..list.len()).rev() {
            list.swap(place, rng.below(place as u64 + 1) as usize);
        }
    });
    let Ok(mut copy) = shuffled else {
        return damaged.to_vec();
    };
    let edition = EDITIONS[usize::from(copy[0]) - 1];
    match rng.below(8) {
        0 => drop(alloc(&mut copy, 8 << rng.below(11))),
        1 => {
            let live: Vec<u32> = live_blocks(&copy).unwrap().into_keys().collect();
            if !live.is_empty() {
                free(&mut copy, rng.pick(&live)).unwrap();
            }
        }
        2 => {
            let pages = (copy.len() - edition.head()) / PER_PAGE;
            let first = edition.page_at(pages, 0);
            let at = first + rng.below((copy.len() - first) as u64) as usize;
            copy[at] ^= 1 << rng.below(8);
        }
        3 => damage(rng, edition, &mut copy),
        4 => drop(copy.pop()),
        5 => {
            for class in 0..9 {
                put(&mut copy, Class(class), REQS, 32, rng.word() >> 32);
                put(&mut copy, Class(class), FAILS, 32, rng.word() >> 32);
            }
        }
        _ => {}
    }
    copy
}

#[test]
fn random_copies() {
    let mut rng = Rng::new(6);
    let mut seen = [0; 15];
    for trial in 0..TRIALS / 5 {
        let edition = rng.pick(&EDITIONS);
        let mut damaged = random_pool(&mut rng, edition);
        let tail = rng.below(20) as usize;
        damaged.extend(rng.bytes(tail));
        for _ in 0..rng.below(4) {
            damage(&mut rng, edition, &mut damaged);
        }
        let copy = copy(&mut rng, &damaged);
        let number = assert_checks(&damaged, &copy, &format!("trial {trial}"));
        seen[usize::from(number)] += 1;
    }
    let seen = [0, 3, 12, 13, 14].map(|number| seen[number]);
    assert!(seen.iter().all(|count| *count > TRIALS / 300), "{seen:?}");
}

#[test]
fn random_damage() {
    let mut rng = Rng::new(2);
    let mut broken = [0; 7];
    for trial in 0..TRIALS {
        let edition = rng.pick(&EDITIONS);
        let mut bytes = random_pool(&mut rng, edition);
        for _ in 0..1 + rng.below(3) {
            damage(&mut rng, edition, &mut bytes);
        }
        let rule = broken_rule(&bytes);
        assert_breaks(&mut bytes, rule, &format!("trial {trial}"));
        assert_converts(&mut rng, &bytes, &format!("trial {trial}"));
        broken[rule as usize] += 1;
        // Without validation the calls must end, whatever they find.
        for _ in 0..4 {
            let pages = ((bytes.len() - edition.head()) / PER_PAGE) as u64;
            let _ = alloc_sound(&mut bytes, rng.below(9_000) as u32);
            let _ = free_sound(&mut bytes, rng.below(pages * 512 + 2) as u32 * 8);
        }
    }
    assert!(
        broken.iter().all(|count| *count > TRIALS / 1_000),
        "{broken:?}"
    );
}

#[test]
fn unvalidated_calls_end_on_random_records() {
    let mut rng = Rng::new(3);
    for trial in 0..TRIALS / 10 {
        let pages = 1 + rng.below(12);
        let edition = rng.pick(&EDITIONS);
        let mut bytes = rng.bytes(edition.length(pages as usize));
        bytes[0] = edition.number;
        if trial % 2 == 0 {
            // Near numbers make links that lead somewhere.
            for page in 0..pages as usize {
                let at = Page(page).at(edition);
                set(&mut bytes, at + KIND, 3, rng.below(5));
                set(&mut bytes, at + CLASS, 4, rng.below(10));
                for above in [RUN, NEXT, PREVIOUS] {
                    set(&mut bytes, at + above, 16, rng.below(pages + 1));
                }
            }
            put(&mut bytes, Header, FIRST, 16, rng.below(pages));
            for class in 0..9 {
                put(&mut bytes, Class(class), CLASS_FIRST, 16, rng.below(pages));
            }
        }
        for _ in 0..8 {
            let _ = alloc_sound(&mut bytes, rng.below(20_000) as u32);
            let _ = free_sound(&mut bytes, rng.below(pages * 512 + 2) as u32 * 8);
            let _ = alloc_sound(&mut bytes, rng.word() as u32);
            let _ = free_sound(&mut bytes, rng.word() as u32);
        }
    }
    for edition in EDITIONS {
        for length in [0, 1, 8, edition.shortest() - 1, edition.longest() + 1] {
            for fill in [edition.number, 0xFF] {
                let mut bytes = vec![fill; length];
                assert_eq!(alloc_sound(&mut bytes, 8), Err(Refusal::NotSound));
                assert_eq!(free_sound(&mut bytes, 0), Err(Refusal::NotSound));
            }
        }
    }
}
