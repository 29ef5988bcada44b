//! Programs that are wrong on purpose, to see that each is caught and that what
//! is printed is short. Each is the second program with one fault. Against the
//! second program it differs; against itself only the live blocks tell.

use reference::layout::{
    set_next, set_previous, set_word, word, ClassRecord, Header, PageNo, PageRecord,
};
use reference::{
    alloc_sound, free_sound, live_blocks, need, peaks, shown, Block, Class, Layout, Need,
};
use support::{Edition, EDITIONS, PAGE, PER_PAGE, TWO};

use crate::case::{Case, Setting, Turn};
use crate::player::{play_all, Found, Plan};
use crate::program::{Program, SECOND};

const BELIEVES_A_SECOND_FREE: Program = Program {
    name: "believes a second free",
    free: |pool, offset| match (SECOND.free)(pool, offset) {
        Err(6) => class_at(pool, offset).map_or(Err(6), |class| Ok(class.chunk_size())),
        answer => answer,
    },
    ..SECOND
};

/// The class of the page at an offset, where it is a class page.
fn class_at(pool: &[u8], offset: u32) -> Option<Class> {
    shown(pool)?.classes[offset as usize / PAGE]
}

const HANDS_OUT_TWICE: Program = Program {
    name: "hands out a block twice",
    alloc: |pool, size| {
        let blocks = live_blocks(pool).unwrap_or_default();
        match need(size) {
            // The third chunk of a class is the first once more.
            Ok(Need::Chunk(class)) if used(pool, class) == 2 => {
                let first = blocks.iter().find(|block| *block.1 == Block::Chunk(class));
                first.map(|block| *block.0).ok_or(3)
            }
            _ => (SECOND.alloc)(pool, size),
        }
    },
    ..SECOND
};

fn used(pool: &[u8], class: Class) -> u32 {
    let layout = Layout::of(pool);
    layout.map_or(0, |layout| ClassRecord::read(pool, layout, class).used)
}

/// Changes the record of each class, where edition and length hold a pool.
fn change_records(pool: &mut [u8], change: impl Fn(Class, &mut ClassRecord)) {
    let Ok(layout) = Layout::of(pool) else {
        return;
    };
    for class in Class::all() {
        let mut record = ClassRecord::read(pool, layout, class);
        change(class, &mut record);
        record.write(pool, layout, class);
    }
}

const OVERLOOKS_COUNTS: Program = Program {
    name: "overlooks counts",
    broken_rule: |pool| match (SECOND.broken_rule)(pool) {
        6 => 0,
        rule => rule,
    },
    alloc: |pool, size| alloc_if((OVERLOOKS_COUNTS.broken_rule)(pool), pool, size),
    free: |pool, offset| free_if((OVERLOOKS_COUNTS.broken_rule)(pool), pool, offset),
    ..SECOND
};

/// Takes a block where this rule is none.
fn alloc_if(rule: u8, pool: &mut [u8], size: u32) -> Result<u32, u8> {
    match rule {
        0 => alloc_sound(pool, size).map_err(|refusal| refusal.number()),
        _ => Err(3),
    }
}

/// Gives a block back where this rule is none.
fn free_if(rule: u8, pool: &mut [u8], offset: u32) -> Result<u32, u8> {
    match rule {
        0 => free_sound(pool, offset).map_err(|refusal| refusal.number()),
        _ => Err(3),
    }
}

/// It overlooks its own counts, so only the live blocks can tell.
const FORGETS_TO_COUNT_FREES: Program = Program {
    name: "forgets to count frees",
    free: |pool, offset| {
        let before: Vec<u32> = Class::all().map(|class| used(pool, class)).collect();
        let answer = (OVERLOOKS_COUNTS.free)(pool, offset);
        change_records(pool, |class, record| record.used = before[class.index()]);
        answer
    },
    ..OVERLOOKS_COUNTS
};

const LETS_THE_END_THROUGH: Program = Program {
    name: "lets the end through",
    free: |pool, offset| match (SECOND.free)(pool, offset) {
        Err(5) if offset as usize == PAGE * shape(pool).1 => Err(6),
        answer => answer,
    },
    ..SECOND
};

/// Edition and page count of a pool that answered otherwise than with 3.
fn shape(pool: &[u8]) -> (Edition, usize) {
    let edition = EDITIONS[usize::from(pool[0]) - 1];
    (edition, (pool.len() - edition.head()) / PER_PAGE)
}

const WIPES_WHAT_IS_FREED: Program = Program {
    name: "wipes what is freed",
    free: |pool, offset| {
        let answer = (SECOND.free)(pool, offset);
        if answer.is_ok() {
            let (edition, pages) = shape(pool);
            let at = edition.page_at(pages, 0) + offset as usize;
            pool[at..at + 8].fill(0);
        }
        answer
    },
    ..SECOND
};

const WIPES_THE_TAIL: Program = Program {
    name: "wipes the tail",
    format: |pool, edition| {
        let answer = (SECOND.format)(pool, edition);
        let (edition, pages) = shape(pool);
        pool[edition.length(pages)..].fill(0);
        answer
    },
    ..SECOND
};

const COUNTS_REFUSED_FREES: Program = Program {
    name: "counts refused frees",
    free: |pool, offset| {
        let answer = (SECOND.free)(pool, offset);
        if answer == Err(7) {
            let fails = word(pool, 16).wrapping_add(1);
            set_word(pool, 16, fails);
        }
        answer
    },
    ..SECOND
};

const TELLS_PAGES: Program = Program {
    name: "tells a run's pages",
    free: |pool, offset| match (SECOND.free)(pool, offset) {
        Ok(bytes) if bytes >= PAGE as u32 => Ok(bytes / PAGE as u32),
        answer => answer,
    },
    ..SECOND
};

const TELLS_THE_CLASS: Program = Program {
    name: "tells a chunk's class",
    free: |pool, offset| match (SECOND.free)(pool, offset) {
        Ok(bytes) if bytes < PAGE as u32 => Ok(bytes.ilog2() - 3),
        answer => answer,
    },
    ..SECOND
};

const TAKES_NOTHING_FOR_ONE: Program = Program {
    name: "takes nothing for one byte",
    alloc: |pool, size| (SECOND.alloc)(pool, size.max(1)),
    ..SECOND
};

const COUNTS_NOTHING: Program = Program {
    name: "counts takes of nothing",
    alloc: |pool, size| {
        let answer = (SECOND.alloc)(pool, size);
        if answer == Err(10) {
            let asks = word(pool, 16).wrapping_add(1 << 32);
            set_word(pool, 16, asks);
        }
        answer
    },
    ..SECOND
};

const TRIES_NOTHING_FIRST: Program = Program {
    name: "tries nothing before soundness",
    alloc: |pool, size| match size {
        0 => Err(10),
        _ => (SECOND.alloc)(pool, size),
    },
    ..SECOND
};

const LETS_THE_PEAK_FALL: Program = Program {
    name: "lets the peak fall with a free",
    free: |pool, offset| {
        let answer = (SECOND.free)(pool, offset);
        if answer.is_ok() {
            change_records(pool, |_, record| set_peak(record, record.used));
        }
        answer
    },
    ..SECOND
};

fn set_peak(record: &mut ClassRecord, most: u32) {
    if let Some(peak) = &mut record.peak {
        peak.most = most;
    }
}

fn peak(record: &ClassRecord) -> u32 {
    record.peak.map_or(0, |peak| peak.most)
}

const SETS_THE_PEAK_AT_EVERY_TAKE: Program = Program {
    name: "sets the peak at every take",
    alloc: |pool, size| {
        let answer = (SECOND.alloc)(pool, size);
        if let (Ok(_), Ok(Need::Chunk(taken))) = (answer, need(size)) {
            change_records(pool, |class, record| {
                if class == taken {
                    set_peak(record, record.used);
                }
            });
        }
        answer
    },
    ..SECOND
};

const COUNTS_REFUSED_TAKES_IN_THE_PEAK: Program = Program {
    name: "counts refused takes in the peak",
    alloc: |pool, size| {
        let answer = (SECOND.alloc)(pool, size);
        if let (Err(4), Ok(Need::Chunk(refused))) = (answer, need(size)) {
            change_records(pool, |class, record| {
                if class == refused {
                    set_peak(record, peak(record).max(record.used + 1));
                }
            });
        }
        answer
    },
    ..SECOND
};

const KEEPS_THE_PEAK_AT_FORMAT: Program = Program {
    name: "keeps the peak at format",
    format: |pool, edition| {
        let layout = Layout::new(edition, pool.len()).expect("a length that holds pages");
        let record = |class| ClassRecord::read(pool, layout, class);
        let peaks: Vec<u32> = Class::all().map(|class| peak(&record(class))).collect();
        let answer = (SECOND.format)(pool, edition);
        change_records(pool, |class, record| set_peak(record, peaks[class.index()]));
        answer
    },
    ..SECOND
};

const OVERLOOKS_ZERO_BITS: Program = Program {
    name: "overlooks the zero bits behind the peak",
    broken_rule: |pool| {
        let mut copy = pool.to_vec();
        change_records(&mut copy, |_, record| {
            if let Some(peak) = &mut record.peak {
                peak.zeros = 0;
            }
        });
        (SECOND.broken_rule)(&copy)
    },
    alloc: |pool, size| alloc_if((OVERLOOKS_ZERO_BITS.broken_rule)(pool), pool, size),
    free: |pool, offset| free_if((OVERLOOKS_ZERO_BITS.broken_rule)(pool), pool, offset),
    ..SECOND
};

const OVERLOOKS_LOW_PEAKS: Program = Program {
    name: "overlooks a peak below used",
    broken_rule: |pool| {
        let mut copy = pool.to_vec();
        change_records(&mut copy, |_, record| {
            set_peak(record, peak(record).max(record.used))
        });
        (SECOND.broken_rule)(&copy)
    },
    alloc: |pool, size| alloc_if((OVERLOOKS_LOW_PEAKS.broken_rule)(pool), pool, size),
    free: |pool, offset| free_if((OVERLOOKS_LOW_PEAKS.broken_rule)(pool), pool, offset),
    ..SECOND
};

const TAKES_ANY_EDITION_FOR_1: Program = Program {
    name: "takes any edition but 2 for 1",
    broken_rule: |pool| as_edition_1(&mut pool.to_vec(), |pool| (SECOND.broken_rule)(pool)),
    alloc: |pool, size| as_edition_1(pool, |pool| (SECOND.alloc)(pool, size)),
    free: |pool, offset| as_edition_1(pool, |pool| (SECOND.free)(pool, offset)),
    ..SECOND
};

fn as_edition_1<T>(pool: &mut [u8], call: impl Fn(&mut [u8]) -> T) -> T {
    let first = pool[0];
    if first != 2 {
        pool[0] = 1;
    }
    let answer = call(pool);
    pool[0] = first;
    answer
}

const MENDS_IN_FALLING_ORDER: Program = Program {
    name: "lists pages in falling order",
    mend: |damaged, target| {
        let answer = (SECOND.mend)(damaged, target);
        if answer.is_ok() {
            turn_over(target);
        }
        answer
    },
    ..SECOND
};

/// Turns the free-run list over.
fn turn_over(pool: &mut [u8]) {
    let layout = Layout::of(pool).expect("a sound pool");
    let mut header = Header::read(pool);
    let mut page = header.first;
    while page != PageNo::NONE {
        let record = PageRecord::read(pool, layout, page);
        set_next(pool, layout, page, record.previous);
        set_previous(pool, layout, page, record.next);
        header.first = page;
        page = record.next;
    }
    header.write(pool);
}

/// The second program's mender, and the records of each class then changed, told
/// the damaged pool's.
fn mend_otherwise(
    damaged: &[u8],
    target: &mut [u8],
    change: impl Fn(&ClassRecord, &mut ClassRecord),
) -> Result<u32, u8> {
    let pages = (SECOND.mend)(damaged, target)?;
    let layout = Layout::of(target).expect("a sound pool");
    change_records(target, |class, record| {
        change(&ClassRecord::read(damaged, layout, class), record)
    });
    Ok(pages)
}

const CLEARS_TALLIES: Program = Program {
    name: "clears asks and failures",
    mend: |damaged, target| {
        mend_otherwise(damaged, target, |_, record| {
            (record.reqs, record.fails) = (0, 0);
        })
    },
    ..SECOND
};

const BEGINS_THE_PEAK_ANEW: Program = Program {
    name: "mends the peak to used",
    mend: |damaged, target| {
        mend_otherwise(damaged, target, |_, record| set_peak(record, record.used))
    },
    ..SECOND
};

const KEEPS_A_LOW_PEAK: Program = Program {
    name: "keeps a peak below used",
    mend: |damaged, target| {
        mend_otherwise(damaged, target, |old, record| set_peak(record, peak(old)))
    },
    ..SECOND
};

const KEEPS_COUNTS: Program = Program {
    name: "keeps used and total",
    mend: |damaged, target| {
        mend_otherwise(damaged, target, |old, record| {
            (record.used, record.total) = (old.used, old.total);
        })
    },
    ..SECOND
};

const KEEPS_ZERO_BITS: Program = Program {
    name: "keeps the zero bits of page records",
    mend: |damaged, target| {
        let answer = (SECOND.mend)(damaged, target);
        if let (Ok(pages), Ok(layout)) = (answer, Layout::of(damaged)) {
            for page in (0..pages).map(PageNo) {
                let zeros = PageRecord::read(damaged, layout, page).zeros;
                let record = PageRecord::read(target, layout, page);
                PageRecord { zeros, ..record }.write(target, layout, page);
            }
        }
        answer
    },
    ..SECOND
};

const LEAVES_THE_TARGETS_TAIL: Program = Program {
    name: "leaves the target's tail",
    mend: |damaged, target| {
        let old = target.to_vec();
        let answer = (SECOND.mend)(damaged, target);
        if answer.is_ok() {
            let (edition, pages) = shape(target);
            let tail = edition.length(pages);
            target[tail..].copy_from_slice(&old[tail..]);
        }
        answer
    },
    ..SECOND
};

const COPIES_BEFORE_IT_LOOKS: Program = Program {
    name: "copies what it then refuses",
    mend: |damaged, target| {
        target.copy_from_slice(damaged);
        (SECOND.mend)(damaged, target)
    },
    ..SECOND
};

const MENDS_NO_COUNTS: Program = Program {
    name: "takes wrong counts for beyond mending",
    mend: |damaged, target| match (SECOND.broken_rule)(damaged) {
        6 => Err(13),
        _ => (SECOND.mend)(damaged, target),
    },
    ..SECOND
};

const CHECKS_THE_DAMAGED_COUNTS: Program = Program {
    name: "looks at the damaged pool's counts",
    check_mended: |damaged, mended| match (SECOND.broken_rule)(damaged) {
        6 => 13,
        _ => (SECOND.check_mended)(damaged, mended),
    },
    ..SECOND
};

const COMPARES_PEAKS: Program = Program {
    name: "compares the copy's peaks",
    check_mended: |damaged, mended| match (SECOND.check_mended)(damaged, mended) {
        0 if peaks(damaged) != peaks(mended) => 14,
        number => number,
    },
    ..SECOND
};

/// Finds the double out and answers what would be printed.
fn found(double: Program, other: Program) -> Found {
    let plans = (0..1_000).map(|seed| Plan {
        edition: EDITIONS[seed as usize / 2 % 2],
        damaging: seed % 2 == 1,
        ..Plan::new(seed, 1 + seed as usize % 16, 300)
    });
    match play_all([double, other], plans) {
        Err(found) => found,
        Ok(_) => panic!("a program that {} was not found out", double.name),
    }
}

#[test]
fn every_double_is_caught_in_a_handful_of_calls() {
    for (double, told) in [
        (BELIEVES_A_SECOND_FREE, "back 8, where the live blocks say"),
        (HANDS_OUT_TWICE, "granted block overlaps the live block"),
        (OVERLOOKS_COUNTS, "though the records are unsound"),
        (FORGETS_TO_COUNT_FREES, "the pool shows other used than"),
        (LETS_THE_END_THROUGH, "refused with 6, where the live"),
        (WIPES_WHAT_IS_FREED, "bytes that no call writes changed"),
        (WIPES_THE_TAIL, "bytes that no call writes changed"),
        (COUNTS_REFUSED_FREES, "a refused call changed the pool"),
        (TELLS_PAGES, "the freed block has not"),
        (TELLS_THE_CLASS, "the freed block has not"),
        (TAKES_NOTHING_FOR_ONE, "at 64, where the live blocks say"),
        (COUNTS_NOTHING, "a refused call changed the pool"),
        (TRIES_NOTHING_FIRST, "though the records are unsound"),
        (LETS_THE_PEAK_FALL, "the pool shows other peaks than"),
        (SETS_THE_PEAK_AT_EVERY_TAKE, "the pool shows other peaks"),
        (COUNTS_REFUSED_TAKES_IN_THE_PEAK, "a refused call changed"),
        (KEEPS_THE_PEAK_AT_FORMAT, "the pool shows other peaks than"),
        (OVERLOOKS_ZERO_BITS, "though the records are unsound"),
        (OVERLOOKS_LOW_PEAKS, "though the records are unsound"),
        (TAKES_ANY_EDITION_FOR_1, "though the records are unsound"),
        (MENDS_IN_FALLING_ORDER, "a list that does not rise"),
        (CLEARS_TALLIES, "the copy has other asks or failures"),
        (BEGINS_THE_PEAK_ANEW, "the copy has another peak"),
        (KEEPS_A_LOW_PEAK, "refuses its copy with 3"),
        (KEEPS_COUNTS, "refuses its copy with 3"),
        (KEEPS_ZERO_BITS, "refuses its copy with 3"),
        (LEAVES_THE_TARGETS_TAIL, "refuses its copy with 14"),
        (COPIES_BEFORE_IT_LOOKS, "a refused call changed the target"),
        (MENDS_NO_COUNTS, "though the live blocks are told"),
        (CHECKS_THE_DAMAGED_COUNTS, "refuses its copy with 13"),
        (COMPARES_PEAKS, "refuses its copy with 14"),
    ] {
        let different = found(double, SECOND);
        let alone = found(double, double);
        for found in [&different, &alone] {
            println!("{found}\n");
            assert!(found.lines.len() <= 6, "{found}");
            assert!(found.case.setting.pages <= 3, "{found}");
        }
        let (_, outcome) = alone.lines.last().expect("some turn");
        assert!(outcome.contains(told), "{alone}");
    }
}

#[test]
fn what_is_printed() {
    let turns = [
        Turn::Alloc(3_000),
        Turn::Alloc(30),
        Turn::Free(700),
        Turn::Alloc(64),
        Turn::Alloc(25),
        Turn::Damage { at: 16, bits: 7 },
        Turn::Alloc(5_000),
        Turn::FreeOf(4),
        Turn::FreeOf(0),
        Turn::Damage { at: 16, bits: 7 },
        Turn::Alloc(2_048),
        Turn::FreeOf(4),
    ];
    let case = Case {
        setting: Setting {
            seed: 5,
            edition: TWO,
            pages: 12,
            tail: 100,
            scrambled: true,
        },
        turns: turns.into_iter().enumerate().collect(),
    };
    let found = Found::shrunk([BELIEVES_A_SECOND_FREE, SECOND], case);
    let expected = "\
edition 1, pages 1, tail 0, seed 5, callers' bytes kept between calls
    alloc 1: at 64
    alloc 1: at 72
    free 72: back 8
    free 72: believes a second free: back 8; second: refused with 6";
    assert_eq!(found.to_string(), expected);
}
