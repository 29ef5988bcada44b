//! The live set, its expected view and its rulings on any next call.

use reference::view::Contradiction;
use reference::{
    alloc, alloc_sound, format, free_sound, live_blocks, peaks, shown, Block, Call, Class, LiveSet,
    Peaks, Refusal,
};

use support::{Rng, EDITIONS, TWO};

fn chunk(number: u32) -> Block {
    Block::Chunk(Class::new(number).unwrap())
}

/// A live set fed with sizes and the offsets that they were answered.
fn live_set(pages: u32, allocs: &[(u32, u32)]) -> LiveSet {
    let mut live = LiveSet::new(pages);
    for (size, offset) in allocs {
        assert_eq!(live.record_alloc(*size, Ok(*offset)), Ok(()));
    }
    live
}

#[test]
fn blocks_enter_and_leave() {
    let mut live = live_set(12, &[(30, 32), (64, 4_096), (5_000, 8_192)]);
    let blocks = [(32, chunk(2)), (4_096, chunk(3)), (8_192, Block::Run(2))];
    assert!(live
        .blocks()
        .iter()
        .map(|(at, block)| (*at, *block))
        .eq(blocks));
    // Refused calls leave it as it was.
    let before = live.clone();
    assert_eq!(live.record_alloc(8, Err(Refusal::NoRoom)), Ok(()));
    assert_eq!(live.record_free(32, Err(Refusal::NotTaken)), Ok(()));
    assert_eq!(live, before);
    assert_eq!(live.record_free(32, Ok(32)), Ok(()));
    assert!(live.blocks().keys().eq(&[4_096, 8_192]));
    assert_eq!(live.record_free(8_192, Ok(8_192)), Ok(()));
    assert!(live.blocks().keys().eq(&[4_096]));
}

#[test]
fn contradictions() {
    let mut live = live_set(4, &[(8, 64), (8, 80), (5_000, 4_096)]);
    let before = live.clone();
    let overlaps = [
        (8, 64, 64),
        (8, 71, 64),
        (8, 73, 80),
        (64, 32, 80),
        (4_096, 0, 80),
        (8, 4_096, 4_096),
        (2_048, 12_287, 4_096),
        (8_192, 8_192, 4_096),
    ];
    for (size, offset, with) in overlaps {
        let entered = live.record_alloc(size, Ok(offset));
        assert_eq!(entered, Err(Contradiction::Overlap(with)));
    }
    for (size, offset) in [
        (8, 16_384),
        (8, 16_377),
        (8_192, 12_288),
        (u32::MAX, u32::MAX),
    ] {
        let entered = live.record_alloc(size, Ok(offset));
        assert_eq!(entered, Err(Contradiction::Outside));
    }
    let entered = live.record_alloc(0, Ok(72));
    assert_eq!(entered, Err(Contradiction::Nothing));
    for offset in [0, 65, 72, 8_192, u32::MAX] {
        let entered = live.record_free(offset, Ok(8));
        assert_eq!(entered, Err(Contradiction::NotLive));
    }
    for (offset, bytes) in [(64, 0), (64, 16), (4_096, 2), (4_096, 5_000)] {
        let entered = live.record_free(offset, Ok(bytes));
        assert_eq!(entered, Err(Contradiction::Bytes(bytes)));
    }
    assert_eq!(live, before);
    assert_eq!(live.record_alloc(8, Ok(72)), Ok(()));
    assert_eq!(live.record_alloc(4_096, Ok(12_288)), Ok(()));
}

#[test]
fn the_expected_view() {
    let fresh = LiveSet::new(3).expected();
    assert_eq!(fresh.free_runs, [(0, 3)]);
    assert_eq!(fresh.classes, [None; 3]);
    assert_eq!(fresh.bitmaps, [None; 3]);
    assert_eq!((fresh.used, fresh.total), ([0; 9], [0; 9]));

    let allocs = [
        (8, 4_096 + 64),
        (8, 4_096 + 4_088),
        (20, 2 * 4_096 + 32),
        (1_000, 5 * 4_096 + 1_024),
        (1_000, 6 * 4_096),
        (8_192, 7 * 4_096),
    ];
    let view = live_set(12, &allocs).expected();
    assert_eq!(view.free_runs, [(0, 1), (3, 2), (9, 3)]);
    let mut classes = [None; 12];
    let mut bitmaps = [None; 12];
    classes[1] = Class::new(0);
    bitmaps[1] = Some([0xFF80 << 48, 0, 0, 0, 0, 0, 0, 1]);
    classes[2] = Class::new(2);
    bitmaps[2] = Some([0b11 << 62, 0, 0, 0, 0, 0, 0, 0]);
    classes[5] = Class::new(7);
    bitmaps[5] = Some([0b01 << 62, 0, 0, 0, 0, 0, 0, 0]);
    classes[6] = Class::new(7);
    bitmaps[6] = Some([0b10 << 62, 0, 0, 0, 0, 0, 0, 0]);
    assert_eq!(view.classes, classes);
    assert_eq!(view.bitmaps, bitmaps);
    assert_eq!(view.used, [2, 0, 1, 0, 0, 0, 0, 2, 0]);
    assert_eq!(view.total, [504, 0, 127, 0, 0, 0, 0, 8, 0]);
}

#[test]
fn a_pool_is_read_by_itself() {
    for edition in EDITIONS {
        let mut pool = vec![0xFF; edition.length(12)];
        format(&mut pool, edition.number).unwrap();
        let mut live = LiveSet::new(12);
        for size in [8, 9, 17, 33, 2_048, 2_048, 2_049, 9_000, 8] {
            live.record_alloc(size, alloc(&mut pool, size)).unwrap();
        }
        assert_eq!(live_blocks(&pool).as_ref(), Some(live.blocks()));
        assert_eq!(shown(&pool), Some(live.expected()));
        let due = (edition == TWO).then(|| live.used());
        assert_eq!(peaks(&pool), due);
        // The view is read as it stands, the blocks only from a sound pool.
        pool[8 + 4] ^= 1;
        let wrong = shown(&pool).unwrap();
        assert_ne!(wrong, live.expected());
        assert_eq!(live_blocks(&pool), None);
        assert_eq!(shown(&pool[..edition.shortest() - 1]), None);
        pool[0] = 3;
        assert_eq!(shown(&pool), None);
        assert_eq!(peaks(&pool), None);
    }
}

#[test]
fn the_peaks_follow_the_live_blocks() {
    let mut live = live_set(12, &[(30, 32), (64, 4_096), (64, 4_160), (5_000, 8_192)]);
    assert_eq!(live.used(), [0, 0, 1, 2, 0, 0, 0, 0, 0]);
    let mut peaks = Peaks::new([0, 3, 0, 0, 0, 0, 0, 0, 0]);
    peaks.note(&live);
    assert_eq!(peaks.by_class(), [0, 3, 1, 2, 0, 0, 0, 0, 0]);
    live.record_free(4_096, Ok(64)).unwrap();
    live.record_free(32, Ok(32)).unwrap();
    peaks.note(&live);
    assert_eq!(peaks.by_class(), [0, 3, 1, 2, 0, 0, 0, 0, 0]);
}

/// Rules on every size and every offset, and holds each ruling against what a
/// copy of the pool answers.
#[test]
fn every_next_call() {
    let states = if cfg!(debug_assertions) { 4 } else { 40 };
    let mut rng = Rng::new(4);
    for _ in 0..states {
        let pages = 1 + rng.below(4) as u32;
        let edition = rng.pick(&EDITIONS);
        let mut pool = vec![0; edition.length(pages as usize)];
        format(&mut pool, edition.number).unwrap();
        let mut live = LiveSet::new(pages);
        let shift = 3 + rng.below(10);
        for _ in 0..rng.below(80) {
            let size = if rng.once_in(6) {
                rng.below(5_000) as u32
            } else {
                1 << shift
            };
            live.record_alloc(size, alloc(&mut pool, size)).unwrap();
            let place = rng.below(u64::from(pages) * 4_096) as u32;
            let offset = live.blocks().range(place..).next().map(|(at, _)| *at);
            if let Some(offset) = offset.filter(|_| rng.once_in(4)) {
                live.record_free(offset, free_sound(&mut pool, offset))
                    .unwrap();
            }
        }
        let mut copy = pool.clone();
        for number in (0..=pages * 4_096 + 1).chain([u32::MAX]) {
            let ruling = live.ruling(Call::Free(number));
            let answer = free_sound(&mut copy, number);
            let bytes = live.blocks().get(&number).map(|block| block.bytes());
            assert_eq!(answer.ok().map(u64::from), bytes, "free {number}");
            assert_eq!(answer.map(|_| ()), ruling, "free {number}");
            if ruling.is_ok() {
                copy.copy_from_slice(&pool);
            }
            let ruling = live.ruling(Call::Alloc(number));
            let answer = alloc_sound(&mut copy, number);
            assert_eq!(answer.map(|_| ()), ruling, "alloc {number}");
            if ruling.is_ok() {
                copy.copy_from_slice(&pool);
            }
        }
    }
}
