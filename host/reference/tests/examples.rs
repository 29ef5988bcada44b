//! The examples of the rules, the refusals and their order, and the errors
//! that would look right.

use std::io::Write;
use std::process::{Command, Stdio};

use reference::{
    alloc, batch, broken_rule, convert, format, free, peaks, report, run_script, shown, validate,
    Class, Refusal,
};

#[path = "support/bits.rs"]
#[allow(dead_code)] // These tests read only a few of the fields.
mod bits;

use bits::get;
use support::{Edition, EDITIONS, ONE, PER_PAGE, RECORD, TWO};

/// A formatted pool over bytes that were not zero.
fn pool(edition: Edition, pages: usize) -> Vec<u8> {
    let mut bytes = vec![0xA5; edition.length(pages)];
    assert_eq!(format(&mut bytes, edition.number), Ok(pages as u32));
    assert!(validate(&bytes));
    bytes
}

fn edition_of(bytes: &[u8]) -> Edition {
    EDITIONS[usize::from(bytes[0]) - 1]
}

fn class_field(bytes: &[u8], class: usize, above: usize, width: usize) -> u64 {
    let record = bits::class_record(edition_of(bytes), class);
    get(bytes, record + above, width)
}

fn page_field(bytes: &[u8], page: usize, above: usize, width: usize) -> u64 {
    let record = bits::page_record(edition_of(bytes), page);
    get(bytes, record + above, width)
}

fn reqs_and_fails(bytes: &[u8], class: usize) -> (u64, u64) {
    let field = |above| class_field(bytes, class, above, 32);
    (field(bits::REQS), field(bits::FAILS))
}

fn used_and_total(bytes: &[u8], class: usize) -> (u64, u64) {
    let field = |above| class_field(bytes, class, above, 24);
    (field(bits::USED), field(bits::TOTAL))
}

/// Free runs in list order, as first page and length.
fn run_list(bytes: &[u8]) -> Vec<(u64, u64)> {
    let mut runs = Vec::new();
    let mut page = get(bytes, bits::FIRST, 16);
    while page != 65_535 {
        let field = |above| page_field(bytes, page as usize, above, 16);
        runs.push((page, field(bits::RUN)));
        page = field(bits::NEXT);
    }
    runs
}

/// The call is refused so, and changes nothing.
fn refused<T: std::fmt::Debug + PartialEq>(
    bytes: &mut [u8],
    refusal: Refusal,
    call: impl Fn(&mut [u8]) -> Result<T, Refusal>,
) {
    let before = bytes.to_vec();
    assert_eq!(call(bytes), Err(refusal));
    assert!(bytes == before, "{refusal} changed the pool");
}

fn free_refused(bytes: &mut [u8], offset: u32, refusal: Refusal) {
    refused(bytes, refusal, |bytes| free(bytes, offset));
}

fn script(input: &str) -> String {
    String::from_utf8(run_script(input.as_bytes())).unwrap()
}

/// What format of a slice of this length answers; where it refuses, nothing
/// changes.
fn format_of(edition: u8, length: usize) -> Result<u32, Refusal> {
    let mut bytes = vec![7; length];
    let answer = format(&mut bytes, edition);
    assert!(answer.is_ok() || bytes == vec![7; length], "{length} bytes");
    answer
}

#[test]
fn format_lengths() {
    assert_eq!(format_of(1, 4_263), Err(Refusal::TooShort));
    assert_eq!(format_of(1, 4_264), Ok(1));
    assert_eq!(format_of(1, 1_056_935), Ok(256));
    assert_eq!(format_of(1, 1_056_936), Ok(257));
    assert_eq!(format_of(1, 16_847_015), Ok(4_096));
    assert_eq!(format_of(1, 16_847_016), Err(Refusal::TooLong));

    assert_eq!(format_of(2, 4_335), Err(Refusal::TooShort));
    assert_eq!(format_of(2, 4_336), Ok(1));
    assert_eq!(format_of(2, 16_847_087), Ok(4_096));
    assert_eq!(format_of(2, 16_847_088), Err(Refusal::TooLong));
    // The same length may hold a page less.
    assert_eq!(format_of(1, 49_496), Ok(12));
    assert_eq!(format_of(2, 49_496), Ok(11));
    assert_eq!(format_of(2, 49_568), Ok(12));

    for edition in EDITIONS {
        let head = edition.head();
        for length in [0, 1, 8, head - 1, head, head + 1] {
            assert_eq!(format_of(edition.number, length), Err(Refusal::TooShort));
        }
        let refused = format_of(edition.number, 20_000_000);
        assert_eq!(refused, Err(Refusal::TooLong));
    }
}

#[test]
fn another_edition_is_refused_before_any_length() {
    for edition in [0].into_iter().chain(3..=255) {
        for length in [0, 4_263, 4_264, 4_336, 49_496] {
            assert_eq!(format_of(edition, length), Err(Refusal::NotSound));
        }
    }
    for edition in [0, 3, 255] {
        assert_eq!(format_of(edition, 16_847_088), Err(Refusal::NotSound));
    }
}

#[test]
fn format_writes_records_alone() {
    for (edition, pages) in EDITIONS
        .into_iter()
        .flat_map(|e| [1, 2, 3, 256].map(|p| (e, p)))
    {
        let tail = if pages == 1 { PER_PAGE - 1 } else { 17 };
        let mut bytes = vec![0xA5; edition.length(pages) + tail];
        assert_eq!(format(&mut bytes, edition.number), Ok(pages as u32));

        let mut expected = vec![0xA5; edition.length(pages) + tail];
        let header = 0x3C << 48 | (pages as u64) << 32 | (pages as u64) << 16;
        expected[..8].copy_from_slice(&header.to_be_bytes());
        expected[0] = edition.number;
        for class in 0..9 {
            let at = edition.class_record_at(class);
            expected[at..at + edition.class_record].fill(0);
            expected[at..at + 2].fill(0xFF);
        }
        for page in 0..pages {
            let (kind, run) = if page == 0 { (1, pages) } else { (0, 0) };
            let last = page > 0 && page == pages - 1;
            let previous = if last { 0 } else { 65_535 };
            let record = kind << 61 | (run as u128) << 41 | 65_535 << 25 | previous << 9;
            let at = edition.page_record_at(page);
            expected[at..at + RECORD].copy_from_slice(&record.to_be_bytes());
        }
        assert!(
            bytes == expected,
            "edition {}, {pages} pages",
            edition.number
        );
        assert!(validate(&bytes));
    }
}

#[test]
fn sizes_and_classes() {
    for edition in EDITIONS {
        let sizes = [
            (1, 0),
            (8, 0),
            (9, 1),
            (16, 1),
            (17, 2),
            (32, 2),
            (33, 3),
            (64, 3),
            (65, 4),
            (128, 4),
            (129, 5),
            (256, 5),
            (257, 6),
            (512, 6),
            (513, 7),
            (1_024, 7),
            (1_025, 8),
            (2_048, 8),
        ];
        for (size, class) in sizes {
            let mut bytes = pool(edition, 12);
            alloc(&mut bytes, size).unwrap();
            let class_of_page = shown(&bytes).unwrap().classes[0];
            assert_eq!(class_of_page, Class::new(class), "size {size}");
            assert_eq!(reqs_and_fails(&bytes, class as usize), (1, 0));
        }
        for (size, pages) in [(2_049, 1), (4_096, 1), (4_097, 2), (8_192, 2), (8_193, 3)] {
            let mut bytes = pool(edition, 12);
            assert_eq!(alloc(&mut bytes, size), Ok(0));
            assert_eq!(run_list(&bytes), [(pages, 12 - pages)], "size {size}");
            assert_eq!(page_field(&bytes, 0, bits::KIND, 3), 3);
            assert_eq!(page_field(&bytes, 0, bits::RUN, 16), pages);
        }
    }
}

#[test]
fn nothing_is_refused_whatever_the_pool() {
    for edition in EDITIONS {
        let mut bytes = pool(edition, 1);
        let nothing = |bytes: &mut [u8]| alloc(bytes, 0);
        refused(&mut bytes, Refusal::NothingAsked, nothing);
        // With a free chunk of the smallest class, then without any page.
        assert_eq!(alloc(&mut bytes, 1), Ok(64));
        refused(&mut bytes, Refusal::NothingAsked, nothing);
        assert_eq!(free(&mut bytes, 64), Ok(8));
        assert_eq!(alloc(&mut bytes, 4_096), Ok(0));
        refused(&mut bytes, Refusal::NothingAsked, nothing);
        assert_eq!(reqs_and_fails(&bytes, 0), (1, 0));
        // Soundness comes first.
        bytes[0] ^= 1;
        refused(&mut bytes, Refusal::NotSound, nothing);
    }
}

#[test]
fn first_chunk_of_a_fresh_pool() {
    for edition in EDITIONS {
        let offsets = [64, 32, 32, 0, 0, 0, 0, 0, 0];
        for (class, offset) in offsets.into_iter().enumerate() {
            assert_eq!(alloc(&mut pool(edition, 12), 8 << class), Ok(offset));
        }
    }
}

#[test]
fn one_page_of_two_chunks() {
    for edition in EDITIONS {
        let mut bytes = pool(edition, 1);
        assert_eq!(alloc(&mut bytes, 2_048), Ok(0));
        assert_eq!(alloc(&mut bytes, 2_048), Ok(2_048));
        let before = bytes.clone();
        assert_eq!(alloc(&mut bytes, 1), Err(Refusal::NoRoom));
        assert_eq!(reqs_and_fails(&bytes, 0), (1, 1));
        // Nothing but the two counts moved.
        let history = 8 + 8..8 + 16;
        assert_eq!(bytes[..history.start], before[..history.start]);
        assert_eq!(bytes[history.end..], before[history.end..]);
        // A full page of the class itself has no room either.
        assert_eq!(alloc(&mut bytes, 2_048), Err(Refusal::NoRoom));
        assert_eq!(reqs_and_fails(&bytes, 8), (3, 1));
        assert_eq!(used_and_total(&bytes, 8), (2, 2));
    }
}

#[test]
fn every_chunk_of_a_page_is_served_in_order() {
    for edition in EDITIONS {
        let served = [504, 254, 127, 64, 32, 16, 8, 4, 2];
        for (class, chunks) in served.into_iter().enumerate() {
            let size = 8 << class;
            let mut bytes = pool(edition, 1);
            for chunk in 1..=chunks {
                let offset = 4_096 - size * (chunks + 1 - chunk);
                assert_eq!(alloc(&mut bytes, size), Ok(offset));
                assert_eq!(used_and_total(&bytes, class), (chunk.into(), chunks.into()));
            }
            assert!(validate(&bytes));
            assert_eq!(alloc(&mut bytes, size), Err(Refusal::NoRoom));
            let reqs = u64::from(chunks) + 1;
            assert_eq!(reqs_and_fails(&bytes, class), (reqs, 1));
        }
    }
}

#[test]
fn the_504th_of_class_8() {
    for edition in EDITIONS {
        let mut bytes = pool(edition, 1);
        for _ in 1..504 {
            alloc(&mut bytes, 8).unwrap();
        }
        assert_eq!(alloc(&mut bytes, 8), Ok(4_088));
        assert_eq!(alloc(&mut bytes, 8), Err(Refusal::NoRoom));
    }
}

#[test]
fn frees_in_a_page_of_class_8() {
    for edition in EDITIONS {
        let mut bytes = pool(edition, 12);
        assert_eq!(alloc(&mut bytes, 8), Ok(64));
        assert_eq!(alloc(&mut bytes, 8), Ok(72));
        free_refused(&mut bytes, 0, Refusal::NotAStart);
        free_refused(&mut bytes, 65, Refusal::NotAStart);
        assert_eq!(free(&mut bytes, 64), Ok(8));
        free_refused(&mut bytes, 64, Refusal::NotTaken);
        // The page goes with its last chunk, and is then free at any offset.
        assert_eq!(free(&mut bytes, 72), Ok(8));
        for offset in [0, 64, 65, 72, 4_095] {
            free_refused(&mut bytes, offset, Refusal::NotTaken);
        }
    }
}

#[test]
fn a_freed_page_goes_to_the_head() {
    for edition in EDITIONS {
        let mut bytes = pool(edition, 12);
        for offset in [0, 4_096, 8_192] {
            assert_eq!(alloc(&mut bytes, 4_096), Ok(offset));
        }
        assert_eq!(free(&mut bytes, 0), Ok(4_096));
        assert_eq!(free(&mut bytes, 8_192), Ok(4_096));
        assert_eq!(run_list(&bytes), [(2, 10), (0, 1)]);
        assert_eq!(alloc(&mut bytes, 4_096), Ok(8_192));
    }
}

#[test]
fn a_run_is_freed_at_its_start_alone() {
    for edition in EDITIONS {
        let mut bytes = pool(edition, 12);
        assert_eq!(alloc(&mut bytes, 8_192), Ok(0));
        for offset in [1, 8, 4_095, 4_096, 4_097, 8_191] {
            free_refused(&mut bytes, offset, Refusal::NotAStart);
        }
        assert_eq!(free(&mut bytes, 0), Ok(8_192));
        free_refused(&mut bytes, 0, Refusal::NotTaken);
        assert!(bytes == pool(edition, 12));
    }
}

#[test]
fn the_pools_end() {
    for edition in EDITIONS {
        let mut bytes = pool(edition, 12);
        free_refused(&mut bytes, 49_151, Refusal::NotTaken);
        free_refused(&mut bytes, 49_152, Refusal::Outside);
        free_refused(&mut bytes, u32::MAX, Refusal::Outside);
        // A tail long enough to look like more pages changes nothing of that.
        let mut bytes = vec![0xA5; edition.length(12) + PER_PAGE - 1];
        format(&mut bytes, edition.number).unwrap();
        free_refused(&mut bytes, 49_152, Refusal::Outside);
    }
}

#[test]
fn soundness_is_judged_first() {
    for edition in EDITIONS {
        let mut bytes = pool(edition, 12);
        assert_eq!(alloc(&mut bytes, 8_192), Ok(0));
        bytes[0] ^= 1;
        for size in [0, 8, 4_096, u32::MAX] {
            refused(&mut bytes, Refusal::NotSound, |bytes| alloc(bytes, size));
        }
        for offset in [0, 4_096, 8_192, 49_152, u32::MAX] {
            free_refused(&mut bytes, offset, Refusal::NotSound);
        }
        for length in [0, 8, edition.shortest() - 1, edition.longest() + 1] {
            let mut bytes = vec![edition.number; length];
            refused(&mut bytes, Refusal::NotSound, |bytes| alloc(bytes, 1));
            free_refused(&mut bytes, u32::MAX, Refusal::NotSound);
        }
    }
}

#[test]
fn boundary_and_own_chunks_come_before_the_mark() {
    for edition in EDITIONS {
        for (class, own) in [(0, 8), (1, 2), (2, 1)] {
            let size = 8 << class;
            let mut bytes = pool(edition, 1);
            let offset = alloc(&mut bytes, size).unwrap();
            assert_eq!(offset, own * size);
            // Clearing one of the map's own marks is what nginx would do here.
            for chunk in 0..own {
                free_refused(&mut bytes, chunk * size, Refusal::NotAStart);
            }
            free_refused(&mut bytes, offset + 1, Refusal::NotAStart);
            free_refused(&mut bytes, offset + size / 2, Refusal::NotAStart);
            free_refused(&mut bytes, offset + size, Refusal::NotTaken);
            free_refused(&mut bytes, offset + size + 1, Refusal::NotAStart);
            free_refused(&mut bytes, 4_096 - size, Refusal::NotTaken);
            free_refused(&mut bytes, 4_095, Refusal::NotAStart);
            assert_eq!(free(&mut bytes, offset), Ok(size));
        }
        let mut bytes = pool(edition, 1);
        assert_eq!(alloc(&mut bytes, 64), Ok(0));
        free_refused(&mut bytes, 32, Refusal::NotAStart);
        free_refused(&mut bytes, 64, Refusal::NotTaken);
        assert_eq!(free(&mut bytes, 0), Ok(64));
    }
}

#[test]
fn page_takes_without_room_change_nothing() {
    for edition in EDITIONS {
        let mut bytes = pool(edition, 3);
        for size in [12_289, 65_536 * 4_096 - 1, u32::MAX] {
            refused(&mut bytes, Refusal::NoRoom, |bytes| alloc(bytes, size));
        }
        for offset in [0, 4_096, 8_192] {
            assert_eq!(alloc(&mut bytes, 4_096), Ok(offset));
        }
        refused(&mut bytes, Refusal::NoRoom, |bytes| alloc(bytes, 2_049));
        // Two free pages that do not touch make no run of two.
        free(&mut bytes, 0).unwrap();
        free(&mut bytes, 8_192).unwrap();
        refused(&mut bytes, Refusal::NoRoom, |bytes| alloc(bytes, 4_097));
    }
}

#[test]
fn reqs_and_fails_stop_at_the_largest_number() {
    for edition in EDITIONS {
        let mut bytes = pool(edition, 1);
        let history = bits::class_record(edition, 3) + bits::REQS;
        bits::set(&mut bytes, history, 64, 0xFFFF_FFFE_FFFF_FFFE);
        alloc(&mut bytes, 4_096).unwrap();
        for _ in 0..3 {
            assert_eq!(alloc(&mut bytes, 64), Err(Refusal::NoRoom));
            let most = u64::from(u32::MAX);
            assert_eq!(reqs_and_fails(&bytes, 3), (most, most));
        }
    }
}

#[test]
fn the_lists_first_run_that_fits_not_the_lowest() {
    for edition in EDITIONS {
        let mut bytes = pool(edition, 12);
        for _ in 0..6 {
            alloc(&mut bytes, 4_096).unwrap();
        }
        free(&mut bytes, 0).unwrap();
        free(&mut bytes, 3 * 4_096).unwrap();
        free(&mut bytes, 4 * 4_096).unwrap();
        assert_eq!(run_list(&bytes), [(3, 2), (0, 1), (6, 6)]);
        assert_eq!(alloc(&mut bytes, 4_096), Ok(3 * 4_096));
        // What remains keeps the run's place.
        assert_eq!(run_list(&bytes), [(4, 1), (0, 1), (6, 6)]);
        // The walk passes runs that are too short.
        assert_eq!(alloc(&mut bytes, 2 * 4_096), Ok(6 * 4_096));
        assert_eq!(run_list(&bytes), [(4, 1), (0, 1), (8, 4)]);
        // An exact fit leaves the list.
        assert_eq!(alloc(&mut bytes, 64), Ok(4 * 4_096));
        assert_eq!(run_list(&bytes), [(0, 1), (8, 4)]);
        assert!(validate(&bytes));
    }
}

#[test]
fn the_search_goes_past_64_marks() {
    for edition in EDITIONS {
        let mut bytes = pool(edition, 1);
        for _ in 0..56 {
            alloc(&mut bytes, 8).unwrap();
        }
        assert_eq!(alloc(&mut bytes, 8), Ok(512));
        while alloc(&mut bytes, 8).is_ok() {}
        free(&mut bytes, 8 * 500).unwrap();
        free(&mut bytes, 8 * 130).unwrap();
        assert_eq!(alloc(&mut bytes, 8), Ok(8 * 130));
        assert_eq!(alloc(&mut bytes, 8), Ok(8 * 500));
        assert_eq!(alloc(&mut bytes, 8), Err(Refusal::NoRoom));
    }
}

#[test]
fn a_joined_run_becomes_the_head() {
    for edition in EDITIONS {
        let mut bytes = pool(edition, 12);
        for _ in 0..12 {
            alloc(&mut bytes, 4_096).unwrap();
        }
        for page in [1, 5, 9] {
            free(&mut bytes, page * 4_096).unwrap();
        }
        assert_eq!(run_list(&bytes), [(9, 1), (5, 1), (1, 1)]);
        // With the run right after, then with the one right before.
        free(&mut bytes, 0).unwrap();
        assert_eq!(run_list(&bytes), [(0, 2), (9, 1), (5, 1)]);
        free(&mut bytes, 6 * 4_096).unwrap();
        assert_eq!(run_list(&bytes), [(5, 2), (0, 2), (9, 1)]);
        // With both.
        free(&mut bytes, 2 * 4_096).unwrap();
        free(&mut bytes, 8 * 4_096).unwrap();
        assert_eq!(run_list(&bytes), [(8, 2), (0, 3), (5, 2)]);
        free(&mut bytes, 7 * 4_096).unwrap();
        assert_eq!(run_list(&bytes), [(5, 5), (0, 3)]);
        assert!(validate(&bytes));
    }
}

#[test]
fn a_full_page_returns_to_the_head_of_its_list() {
    for edition in EDITIONS {
        let mut bytes = pool(edition, 12);
        for page in 0..3 {
            assert_eq!(alloc(&mut bytes, 2_048), Ok(page * 4_096));
            assert_eq!(alloc(&mut bytes, 2_048), Ok(page * 4_096 + 2_048));
        }
        assert_eq!(class_field(&bytes, 8, bits::CLASS_FIRST, 16), 65_535);
        free(&mut bytes, 2_048).unwrap();
        free(&mut bytes, 8_192).unwrap();
        free(&mut bytes, 4_096).unwrap();
        assert_eq!(alloc(&mut bytes, 2_048), Ok(4_096));
        assert_eq!(alloc(&mut bytes, 2_048), Ok(8_192));
        assert_eq!(alloc(&mut bytes, 2_048), Ok(2_048));
        assert_eq!(used_and_total(&bytes, 8), (6, 6));
    }
}

#[test]
fn inside_pages_only_marks_change() {
    for edition in EDITIONS {
        for class in 0..9 {
            let size = 8 << class;
            let map_bytes = [64, 32, 16, 0, 0, 0, 0, 0, 0][class];
            let mut bytes = pool(edition, 2);
            let page = edition.page_at(2, 0);
            let offset = alloc(&mut bytes, size).unwrap();
            assert!(bytes[page + map_bytes..].iter().all(|byte| *byte == 0xA5));
            free(&mut bytes, offset).unwrap();
            assert!(bytes[page + map_bytes..].iter().all(|byte| *byte == 0xA5));
            // A released page keeps the map's own marks.
            let own = [8, 2, 1, 0, 0, 0, 0, 0, 0][class];
            for bit in 0..map_bytes * 8 {
                assert_eq!(get(&bytes, page * 8 + bit, 1), u64::from(bit < own));
            }
            assert!(bytes[..page] != pool(edition, 2)[..page], "asks are kept");
        }
    }
}

/// The first byte is looked at before anything else.
#[test]
fn the_edition_is_told_by_the_first_byte() {
    for edition in EDITIONS {
        let mut bytes = pool(edition, 12);
        for number in 0..=255 {
            bytes[0] = number;
            match number {
                1 | 2 => assert_eq!(validate(&bytes), number == edition.number),
                _ => assert_eq!(broken_rule(&bytes), 1, "edition {number}"),
            }
        }
    }
    assert_eq!(broken_rule(&[]), 1);
    // Twelve pages of edition 1 are eleven of edition 2, which the header denies.
    let mut bytes = pool(ONE, 12);
    bytes[0] = 2;
    assert_eq!(broken_rule(&bytes), 1);
    // With a tail both have twelve, and the records are read elsewhere.
    let mut bytes = vec![0; TWO.length(12)];
    format(&mut bytes, 1).unwrap();
    bytes[0] = 2;
    assert_eq!(broken_rule(&bytes), 2);
}

#[test]
fn the_peak_is_the_largest_used() {
    let mut bytes = pool(TWO, 1);
    let peak = |bytes: &[u8]| peaks(bytes).unwrap()[8];
    assert_eq!(peaks(&bytes), Some([0; 9]));
    assert_eq!(alloc(&mut bytes, 2_048), Ok(0));
    assert_eq!(peak(&bytes), 1);
    assert_eq!(alloc(&mut bytes, 2_048), Ok(2_048));
    assert_eq!(peak(&bytes), 2);
    // Neither refused calls nor frees move it.
    assert_eq!(alloc(&mut bytes, 2_048), Err(Refusal::NoRoom));
    assert_eq!(alloc(&mut bytes, 8), Err(Refusal::NoRoom));
    assert_eq!(alloc(&mut bytes, 0), Err(Refusal::NothingAsked));
    assert_eq!(free(&mut bytes, 1), Err(Refusal::NotAStart));
    assert_eq!(peak(&bytes), 2);
    for offset in [0, 2_048] {
        assert_eq!(free(&mut bytes, offset), Ok(2_048));
        assert_eq!(peak(&bytes), 2);
    }
    // A take below it does not either, nor takes of pages and other classes.
    assert_eq!(alloc(&mut bytes, 2_048), Ok(0));
    assert_eq!(free(&mut bytes, 0), Ok(2_048));
    assert_eq!(alloc(&mut bytes, 4_096), Ok(0));
    assert_eq!(free(&mut bytes, 0), Ok(4_096));
    assert_eq!(alloc(&mut bytes, 1_024), Ok(0));
    assert_eq!(peaks(&bytes), Some([0, 0, 0, 0, 0, 0, 0, 1, 2]));
    assert_eq!(class_field(&bytes, 8, bits::PEAK, 24), 2);
    assert_eq!(class_field(&bytes, 8, bits::PEAK_ZEROS, 40), 0);
    assert_eq!(format(&mut bytes, 2), Ok(1));
    assert_eq!(peaks(&bytes), Some([0; 9]));
    assert_eq!(peaks(&pool(ONE, 1)), None);
}

/// A peak that no history explains stands until used is above it.
#[test]
fn the_peak_of_any_sound_pool() {
    let mut bytes = pool(TWO, 1);
    let field = bits::class_record(TWO, 3) + bits::PEAK;
    bits::set(&mut bytes, field, 24, 3);
    for used in 1..=6 {
        alloc(&mut bytes, 64).unwrap();
        assert_eq!(class_field(&bytes, 3, bits::PEAK, 24), used.max(3));
    }
    bits::set(&mut bytes, field, 24, 0xFF_FFFF);
    alloc(&mut bytes, 64).unwrap();
    assert_eq!(class_field(&bytes, 3, bits::PEAK, 24), 0xFF_FFFF);
    assert!(validate(&bytes));
}

/// A pool of edition 1 of twelve pages with blocks of all kinds, and the bytes
/// of its tail.
fn filled(tail: usize) -> Vec<u8> {
    let mut bytes = vec![0xA5; ONE.length(12) + tail];
    format(&mut bytes, 1).unwrap();
    for size in [8, 8, 30, 64, 2_048, 2_048, 2_048, 5_000, 4_096] {
        alloc(&mut bytes, size).unwrap();
    }
    free(&mut bytes, 64).unwrap();
    bytes
}

#[test]
fn conversion() {
    let source = filled(0);
    let mut target = vec![0x77; TWO.length(12) + 5];
    assert_eq!(convert(&source, &mut target), Ok(12));
    assert!(validate(&target));
    assert_eq!(shown(&target), shown(&source));
    assert_eq!(target[0], 2);
    assert_eq!(target[1..8], source[1..8]);
    for class in 0..9 {
        let old = &source[ONE.class_record_at(class)..][..16];
        let new = &target[TWO.class_record_at(class)..][..24];
        assert_eq!(new[..16], *old);
        assert_eq!(new[16..19], old[2..5]);
        assert_eq!(new[19..], [0; 5]);
    }
    assert_eq!(peaks(&target), Some([1, 0, 1, 1, 0, 0, 0, 0, 3]));
    assert_eq!(target[224..TWO.length(12)], source[152..]);
    assert_eq!(target[TWO.length(12)..], [0x77; 5]);
    // The history for peak starts here.
    assert_eq!(alloc(&mut target, 2_048), Ok(4 * 4_096 + 2_048));
    assert_eq!(peaks(&target).unwrap()[8], 4);
    assert_eq!(free(&mut target, 72), Ok(8));
    assert_eq!(peaks(&target).unwrap()[0], 1);
}

#[test]
fn conversions_that_are_refused() {
    let refused = |source: &[u8], length: usize, refusal| {
        let mut target = vec![0x77; length];
        assert_eq!(convert(source, &mut target), Err(refusal), "{length} bytes");
        assert!(target == vec![0x77; length], "{refusal} changed the target");
    };
    let source = filled(17);
    let (shortest, too_long) = (TWO.length(12), TWO.length(13));
    let wrong = [
        0,
        1,
        224,
        4_335,
        4_336,
        source.len(),
        shortest - 1,
        too_long,
    ];
    for length in wrong.into_iter().chain([16_847_087, 16_847_088]) {
        refused(&source, length, Refusal::WrongLength);
    }
    for length in [shortest, too_long - 1] {
        assert_eq!(convert(&source, &mut vec![0x77; length]), Ok(12));
    }
    // Of edition 2, another or none; unsound; too short; and 3 comes first.
    let mut other = source.clone();
    for edition in [0, 2, 3, 255] {
        other[0] = edition;
        refused(&other, shortest, Refusal::NotSound);
        refused(&other, 0, Refusal::NotSound);
    }
    let mut unsound = source.clone();
    unsound[5] ^= 1;
    let second = pool(TWO, 12);
    for source in [
        &unsound[..],
        &second,
        &source[..ONE.length(12) - 1],
        &[1],
        &[],
    ] {
        for length in [0, shortest - 1, shortest, TWO.length(11)] {
            refused(source, length, Refusal::NotSound);
        }
    }
}

/// The report program stays with edition 1.
#[test]
fn an_image_of_edition_2_breaks_rule_1_of_a_report() {
    let mut image = pool(TWO, 12);
    assert_eq!(report(&image), b"1\n");
    image[5] ^= 1;
    assert_eq!(broken_rule(&image), 6);
    assert_eq!(report(&image), b"1\n");
    let mut target = vec![0; TWO.length(12)];
    assert_eq!(convert(&filled(0), &mut target), Ok(12));
    assert_eq!(report(&target), b"1\n");
    assert!(report(&filled(3)).starts_with(b"pool 12\n"));
    assert_eq!(report(&vec![2; 53_608]), b"no 2\n");
}

#[test]
fn the_whole_case() {
    let input = "take 30\ntake 64\ntake 5000\ngive 32\ngive 32\ntake 0\n";
    let printout = "pool 12\nat 32\nat 4096\nat 8192\nback 32\nno 6\nno 10\nfree 9 runs 2\n";
    assert_eq!(script(input), printout);
    // A last line may lack its newline.
    assert_eq!(script(input.trim_end()), printout);
}

#[test]
fn script_lines() {
    assert_eq!(script(""), "pool 12\nfree 12 runs 1\n");
    assert_eq!(script("\n"), "pool 12\nno 8\nfree 12 runs 1\n");
    assert_eq!(script("\n\n"), "pool 12\nno 8\nno 8\nfree 12 runs 1\n");
    assert_eq!(script("give 0"), "pool 12\nno 6\nfree 12 runs 1\n");
    assert_eq!(
        script("take 1\n\n"),
        "pool 12\nat 64\nno 8\nfree 11 runs 1\n"
    );
    let unreadable = [
        "take",
        "take ",
        "give",
        "give ",
        " take 1",
        "take 1 ",
        "take  1",
        "take\t1",
        "take 1\r",
        "take 1\0",
        "take +1",
        "take -1",
        "take 01",
        "take 00",
        "take 0x1",
        "take 1.0",
        "take 1 2",
        "take 4294967296",
        "take 99999999999999999999999999",
        "Take 1",
        "TAKE 1",
        "took 1",
        "take1",
        "1",
        "take \u{661}",
        "give 01",
        "give -0",
        "give 4294967296",
    ];
    for line in unreadable {
        let printout = "pool 12\nno 8\nat 64\nfree 11 runs 1\n";
        assert_eq!(script(&format!("{line}\ntake 1\n")), printout, "{line:?}");
    }
    let bytes = run_script(b"take \xFF\n\xFF");
    assert_eq!(bytes, b"pool 12\nno 8\nno 8\nfree 12 runs 1\n");
}

#[test]
fn script_numbers() {
    let input = "take 4294967295\ngive 4294967295\ngive 0\ntake 0\n";
    let printout = "pool 12\nno 4\nno 5\nno 6\nno 10\nfree 12 runs 1\n";
    assert_eq!(script(input), printout);
    let input = "take 4096\ntake 4096\ntake 4096\ngive 0\ngive 8192\ngive 4097\n";
    let printout = "pool 12\nat 0\nat 4096\nat 8192\nback 4096\nback 4096\nno 7\nfree 11 runs 2\n";
    assert_eq!(script(input), printout);
    let printout = "pool 12\nat 0\nno 4\nfree 0 runs 0\n";
    assert_eq!(script("take 49152\ntake 1"), printout);
}

#[test]
fn script_length() {
    let longest = "\n".repeat(12_288);
    let printout = format!("pool 12\n{}free 12 runs 1\n", "no 8\n".repeat(12_288));
    assert_eq!(script(&longest), printout);
    assert_eq!(script(&(longest + "\n")), "no 9\n");
    assert_eq!(run_script(&[0xFF; 20_000]), b"no 9\n");
}

#[test]
fn the_script_program() {
    let inputs = [
        "",
        "take 30\ntake 64\ngive 32\nnothing",
        &"x".repeat(100_000),
    ];
    for input in inputs {
        let mut program = Command::new(env!("CARGO_BIN_EXE_script"))
            .stdin(Stdio::piped())
            .stdout(Stdio::piped())
            .spawn()
            .unwrap();
        let mut stdin = program.stdin.take().unwrap();
        stdin.write_all(input.as_bytes()).unwrap();
        drop(stdin);
        let output = program.wait_with_output().unwrap();
        assert!(output.status.success());
        assert_eq!(output.stdout, run_script(input.as_bytes()));
    }
}

#[test]
fn refusal_numbers() {
    let refusals = [
        (1, Refusal::TooShort, "too short"),
        (2, Refusal::TooLong, "too long"),
        (3, Refusal::NotSound, "not sound"),
        (4, Refusal::NoRoom, "no room"),
        (5, Refusal::Outside, "outside"),
        (6, Refusal::NotTaken, "not taken"),
        (7, Refusal::NotAStart, "not a start"),
        (8, Refusal::Unreadable, "unreadable"),
        (9, Refusal::ScriptTooLong, "script too long"),
        (10, Refusal::NothingAsked, "nothing asked"),
        (11, Refusal::AnswersTooShort, "answers too short"),
        (12, Refusal::WrongLength, "wrong length"),
        (15, Refusal::OutOfRange, "out of range"),
    ];
    for (number, refusal, name) in refusals {
        assert_eq!(refusal.number(), number);
        assert_eq!(refusal.to_string(), name);
    }
}

/// The request word of a give.
fn give(offset: u64) -> u64 {
    1 << 63 | offset
}

/// The answer word of a refusal.
fn no(number: u64) -> u64 {
    number << 56
}

#[test]
fn a_batch_answers_as_single_calls_do() {
    for edition in EDITIONS {
        let mut bytes = pool(edition, 12);
        let mut alone = bytes.clone();
        let requests = [30, 64, 5_000, give(32), give(32), 4_294_967_295];
        let mut answers = [7; 8];
        assert_eq!(batch(&mut bytes, &requests, &mut answers), Ok(()));
        assert_eq!(alloc(&mut alone, 30), Ok(32));
        assert_eq!(alloc(&mut alone, 64), Ok(4_096));
        assert_eq!(alloc(&mut alone, 5_000), Ok(8_192));
        assert!(free(&mut alone, 32).is_ok());
        assert_eq!(free(&mut alone, 32), Err(Refusal::NotTaken));
        assert_eq!(alloc(&mut alone, u32::MAX), Err(Refusal::NoRoom));
        assert_eq!(answers[..3], [32, 4_096, 8_192]);
        assert_eq!(answers[3] >> 56, 0);
        assert_eq!(answers[4..6], [no(6), no(4)]);
        // Answer words beyond the requests stay.
        assert_eq!(answers[6..], [7, 7]);
        assert!(bytes == alone);
    }
}

#[test]
fn stray_bits_of_a_batch() {
    for edition in EDITIONS {
        let strays = (32..63).flat_map(|bit| [1 << bit | 8, give(0) | 1 << bit]);
        for stray in strays.chain([u64::MAX]) {
            let mut bytes = pool(edition, 1);
            let mut answers = [0; 3];
            assert_eq!(batch(&mut bytes, &[8, stray, 8], &mut answers), Ok(()));
            assert_eq!(answers, [64, no(8), 72], "{stray:#x}");
        }
    }
}

#[test]
fn a_batch_is_refused_whole() {
    for edition in EDITIONS {
        let mut bytes = pool(edition, 1);
        let mut answers = [7; 1];
        let before = bytes.clone();
        let refused = batch(&mut bytes, &[8, 8], &mut answers);
        assert_eq!(refused, Err(Refusal::AnswersTooShort));
        assert!(bytes == before && answers == [7]);

        bytes[0] = 0;
        let before = bytes.clone();
        let refused = batch(&mut bytes, &[8, 8], &mut answers);
        assert_eq!(refused, Err(Refusal::AnswersTooShort));
        assert_eq!(
            batch(&mut bytes, &[8], &mut answers),
            Err(Refusal::NotSound)
        );
        assert_eq!(batch(&mut bytes, &[], &mut []), Err(Refusal::NotSound));
        assert!(bytes == before && answers == [7]);
    }
}
