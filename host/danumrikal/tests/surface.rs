//! What the wrapper adds to the calls: numbers, names, lengths and places.

use danumrikal::{convert, peaks, Edition, Offset, Pool, Refusal, Rule};
use support::{EDITIONS, MOST_PAGES, ONE, PAGE, PER_PAGE, TWO};

#[test]
fn refusals_have_the_second_programs_numbers_and_names() {
    let refusals = [
        (Refusal::TooShort, reference::Refusal::TooShort),
        (Refusal::TooLong, reference::Refusal::TooLong),
        (Refusal::NotSound, reference::Refusal::NotSound),
        (Refusal::NoRoom, reference::Refusal::NoRoom),
        (Refusal::Outside, reference::Refusal::Outside),
        (Refusal::NotTaken, reference::Refusal::NotTaken),
        (Refusal::NotAStart, reference::Refusal::NotAStart),
        (Refusal::Unreadable, reference::Refusal::Unreadable),
        (Refusal::NothingAsked, reference::Refusal::NothingAsked),
        (
            Refusal::AnswersTooShort,
            reference::Refusal::AnswersTooShort,
        ),
        (Refusal::WrongLength, reference::Refusal::WrongLength),
        (Refusal::BeyondMending, reference::Refusal::BeyondMending),
        (Refusal::OtherBlocks, reference::Refusal::OtherBlocks),
        (Refusal::OutOfRange, reference::Refusal::OutOfRange),
        (Refusal::NoPlace, reference::Refusal::NoPlace),
        (Refusal::NotHeld, reference::Refusal::NotHeld),
    ];
    for (ours, theirs) in refusals {
        assert_eq!(ours.number(), theirs.number());
        assert_eq!(ours.name(), theirs.to_string());
        assert_eq!(ours.to_string(), format!("{theirs} ({})", theirs.number()));
    }
}

#[test]
fn rules_by_number_and_name() {
    let rules = [
        (Rule::Header, "header (1)"),
        (Rule::Pages, "pages (2)"),
        (Rule::FreeRuns, "free-run list (3)"),
        (Rule::ClassLists, "class lists (4)"),
        (Rule::InUse, "in use (5)"),
        (Rule::Counts, "counts (6)"),
    ];
    for (rule, text) in rules {
        assert_eq!(rule.to_string(), text);
        assert_eq!(text, format!("{} ({})", rule.name(), rule.number()));
    }
}

/// The wrapper's edition of one of the tests'.
fn edition_of(edition: support::Edition) -> Edition {
    Edition::from_number(edition.number).expect("an edition")
}

#[test]
fn editions_by_number() {
    let numbered = (0..=255).filter_map(Edition::from_number);
    assert!(numbered.eq([Edition::One, Edition::Two]));
    for edition in EDITIONS {
        assert_eq!(edition_of(edition).number(), edition.number);
        assert_eq!(Edition::of(&[edition.number, 7]), Some(edition_of(edition)));
        let text = format!("edition {}", edition.number);
        assert_eq!(edition_of(edition).to_string(), text);
    }
    assert_eq!(Edition::of(&[0]), None);
    assert_eq!(Edition::of(&[]), None);
}

/// The numbers of three places that must agree: the rules' text, the wrapper,
/// and what tests use.
#[test]
fn lengths_and_limits() {
    assert_eq!((danumrikal::PAGE, danumrikal::MOST_PAGES), (4_096, 4_096));
    assert_eq!((PAGE, MOST_PAGES), (4_096, 4_096));
    assert_eq!((ONE.shortest(), ONE.longest()), (4_264, 16_847_015));
    assert_eq!((TWO.shortest(), TWO.longest()), (4_336, 16_847_087));
    for of in EDITIONS {
        let edition = edition_of(of);
        for pages in (1..=300)
            .chain((301..MOST_PAGES).step_by(41))
            .chain([MOST_PAGES])
        {
            assert_eq!(edition.length(pages), of.length(pages));
            let format = |len| Pool::new(&mut vec![0; len]).format(edition);
            assert_eq!(format(edition.length(pages)), Ok(pages as u32));
            assert_eq!(format(edition.length(pages + 1) - 1), Ok(pages as u32));
        }
    }
}

#[test]
fn blocks_lie_where_their_pages_do() {
    let longest = PER_PAGE - 1;
    let shapes = [
        (1, 0),
        (1, longest),
        (12, 0),
        (12, 17),
        (256, longest),
        (4_096, longest),
    ];
    for (of, (pages, tail)) in EDITIONS.into_iter().flat_map(|of| shapes.map(|s| (of, s))) {
        let mut bytes = vec![of.number; of.length(pages) + tail];
        let start = bytes.as_ptr() as usize;
        let place = |block: &[u8]| (block.as_ptr() as usize - start, block.len());
        let mut pool = Pool::new(&mut bytes);
        assert_eq!(pool.edition(), Some(edition_of(of)));
        for page in 0..pages {
            let offset = Offset((PAGE * page) as u32);
            let expected = Some((of.page_at(pages, page), PAGE));
            assert_eq!(pool.block(offset, PAGE as u32).map(place), expected);
            let block = pool.block_mut(offset, PAGE as u32);
            assert_eq!(block.map(|block| place(block)), expected);
        }
        let end = (PAGE * pages) as u32;
        let last = pool.block(Offset(end - 1), 1);
        assert_eq!(last.map(place), Some((of.length(pages) - 1, 1)));
        for (offset, size) in [(end, 1), (end - 1, 2), (0, end + 1), (u32::MAX, u32::MAX)] {
            assert_eq!(pool.block(Offset(offset), size), None, "{size} at {offset}");
            assert_eq!(pool.block_mut(Offset(offset), size), None);
        }
    }
    for of in EDITIONS {
        for len in [0, of.head() - 1, of.head(), of.shortest() - 1] {
            let mut bytes = vec![of.number; len];
            let pool = Pool::new(&mut bytes);
            assert_eq!(pool.block(Offset(0), 1), None, "length {len}");
        }
    }
    // Without an edition nobody knows where pages lie.
    let mut bytes = vec![3; ONE.length(12)];
    assert_eq!(Pool::new(&mut bytes).block(Offset(0), 1), None);
}

/// Peaks are read where the second program reads them.
#[test]
fn peaks_lie_in_third_words() {
    let mut bytes = vec![0; TWO.length(16)];
    let mut pool = Pool::new(&mut bytes);
    pool.format(Edition::Two).expect("sixteen pages");
    for class in 0..9 {
        for _ in 0..=class {
            pool.alloc(8 << class).expect("room");
        }
    }
    assert_eq!(pool.peaks(), Some([1, 2, 3, 4, 5, 6, 7, 8, 9]));
    assert_eq!(peaks(&bytes), reference::peaks(&bytes));
    // All 24 bits of each, and none of the 40 behind them.
    for class in 0..9 {
        let third = TWO.class_record_at(class) + 16;
        bytes[third..third + 8].copy_from_slice(&[0xAB, 0xCD, class as u8, 9, 9, 9, 9, 9]);
    }
    let due = [0, 1, 2, 3, 4, 5, 6, 7, 8].map(|class| 0xAB_CD00 + class);
    assert_eq!(peaks(&bytes), Some(due));
    assert_eq!(reference::peaks(&bytes), Some(due));
    // A pool's head must be there, and be of edition 2.
    assert_eq!(peaks(&bytes[..TWO.head() - 1]), None);
    assert!(peaks(&bytes[..TWO.head()]).is_some());
    for first in [0, 1, 3] {
        bytes[0] = first;
        assert_eq!(peaks(&bytes), None);
    }
    assert_eq!(peaks(&[]), None);
}

#[test]
fn converted_blocks_keep_their_offsets_and_bytes() {
    let mut old = vec![0; Edition::One.length(3)];
    let mut pool = Pool::new(&mut old);
    pool.format(Edition::One).expect("three pages");
    let blocks: Vec<(Offset, u32)> = [5, 30, 4_096]
        .map(|size| (pool.alloc(size).expect("room"), size))
        .into();
    for &(block, size) in &blocks {
        pool.block_mut(block, size)
            .expect("inside")
            .fill(size as u8);
    }
    let mut new = vec![0; Edition::Two.length(3)];
    assert_eq!(convert(&old, &mut new), Ok(3));
    let pool = Pool::new(&mut new);
    assert_eq!(pool.edition(), Some(Edition::Two));
    assert_eq!(pool.peaks(), Some([1, 0, 1, 0, 0, 0, 0, 0, 0]));
    for (block, size) in blocks {
        let bytes = vec![size as u8; size as usize];
        assert_eq!(pool.block(block, size), Some(&bytes[..]));
    }
}
