//! Lists of offsets freed whole or not at all: the proved call against the
//! second program and against single frees, in both editions. The answer and
//! every byte of the pool are compared, whatever the pool and the list hold.
//! Where a list is freed, reordered it leaves the same view; peaks stay, and no
//! alloc that was granted before is refused after.
//!
//! The seeds are fixed. `DANUMRIKAL_TIMES=10` frees ten times as many lists.

use danumrikal::{Failed, Offset, Pool, Refusal};
use reference::{alloc_sound, broken_rule, free_all, free_sound, live_blocks, peaks, shown};
use support::{mixed_size, offset, Edition, Habit, Rng, EDITIONS, PER_PAGE};

/// A pool and a list of offsets.
#[derive(Clone, Debug, PartialEq, Eq)]
struct Case {
    pool: Vec<u8>,
    offsets: Vec<u32>,
}

/// Frees a list and answers the word of the answer.
type Program = fn(&mut [u8], &[u32]) -> u64;

impl Case {
    /// What the program answers, and the pool as it leaves it.
    fn freed(&self, program: Program) -> (u64, Vec<u8>) {
        let mut pool = self.pool.clone();
        let answer = program(&mut pool, &self.offsets);
        (answer, pool)
    }
}

fn word(number: u8, value: u32) -> u64 {
    u64::from(number) << 56 | u64::from(value)
}

fn proved(pool: &mut [u8], offsets: &[u32]) -> u64 {
    let offsets: Vec<_> = offsets.iter().copied().map(Offset).collect();
    match Pool::new(pool).free_all(&offsets) {
        Ok(blocks) => word(0, blocks),
        Err(Failed { place, refusal }) => word(refusal.number(), place),
    }
}

fn second(pool: &mut [u8], offsets: &[u32]) -> u64 {
    match free_all(pool, offsets) {
        Ok(blocks) => word(0, blocks),
        Err((place, refusal)) => word(refusal.number(), place),
    }
}

/// Single frees of the proved pool on a copy, which becomes the pool where all
/// of them are granted.
fn singly(pool: &mut [u8], offsets: &[u32]) -> u64 {
    if Pool::new(pool).check().is_err() {
        return word(3, 0);
    }
    let mut copy = pool.to_vec();
    for (place, &offset) in (0..).zip(offsets) {
        if let Err(refusal) = Pool::new(&mut copy).free(Offset(offset)) {
            return word(refusal.number(), place);
        }
    }
    pool.copy_from_slice(&copy);
    word(0, offsets.len() as u32)
}

/// A pool after some calls, and a list made of its live blocks.
fn case(rng: &mut Rng, edition: Edition, pages: usize) -> Case {
    let tail = rng.below(PER_PAGE as u64) as usize;
    let mut pool = rng.bytes(edition.length(pages) + tail);
    reference::format(&mut pool, edition.number).expect("a length that holds pages");
    let habit = Habit::any(rng);
    let mut taken = Vec::new();
    for _ in 0..rng.below(200) {
        if rng.below(16) < habit.allocs || taken.is_empty() {
            taken.extend(alloc_sound(&mut pool, habit.size(rng, pages)));
        } else {
            let at = rng.below(taken.len() as u64) as usize;
            free_sound(&mut pool, taken.swap_remove(at)).expect("a live block");
        }
    }
    let mut offsets: Vec<u32> = live_blocks(&pool)
        .expect("a sound pool")
        .into_keys()
        .collect();
    shuffle(rng, &mut offsets);
    if rng.once_in(2) {
        offsets.truncate(rng.below(offsets.len() as u64 + 1) as usize);
    }
    for _ in 0..rng.below(3) {
        let at = rng.below(offsets.len() as u64 + 1) as usize;
        let near = offsets.get(at.wrapping_sub(1)).copied();
        let stray = match near.filter(|_| rng.once_in(2)) {
            Some(again) => again,
            None => offset(rng, pages, near),
        };
        offsets.insert(at, stray);
    }
    if rng.once_in(6) {
        let records = edition.page_at(pages, 0);
        let at = rng.below(records as u64) as usize;
        pool[at] ^= 1 << rng.below(8);
    }
    Case { pool, offsets }
}

fn shuffle(rng: &mut Rng, offsets: &mut [u32]) {
    for last in (1..offsets.len()).rev() {
        offsets.swap(last, rng.below(last as u64 + 1) as usize);
    }
}

/// How often each answer came.
#[derive(Debug, Default)]
struct Seen {
    freed: usize,
    blocks: usize,
    by_number: [usize; 8],
    /// 6 where single frees on the pool at entry answer 7 to the offset.
    released: usize,
}

fn play(seed: u64, edition: Edition, pages: usize, seen: &mut Seen) {
    let rng = &mut Rng::new(seed);
    let case = case(rng, edition, pages);
    let place = format!("seed {seed}, edition {}, {pages} pages", edition.number);
    let (answer, end) = case.freed(proved);
    assert!(
        case.freed(second) == (answer, end.clone()),
        "{place}: second: {:?}",
        case.offsets
    );
    assert!(
        case.freed(singly) == (answer, end.clone()),
        "{place}: singly: {:?}",
        case.offsets
    );
    match answer >> 56 {
        0 => {
            assert_eq!(answer as usize, case.offsets.len());
            assert_eq!(broken_rule(&end), 0, "{place}");
            assert_eq!(peaks(&end), peaks(&case.pool), "{place}: peaks");
            let mut other = case.clone();
            shuffle(rng, &mut other.offsets);
            let (again, left) = other.freed(proved);
            assert_eq!(again, answer, "{place}: reordered {:?}", other.offsets);
            assert!(
                shown(&left) == shown(&end),
                "{place}: reordered {:?}",
                other.offsets
            );
            for class in 0..12 {
                let size = 8 << class;
                let grants = |pool: &[u8]| Pool::new(&mut pool.to_vec()).alloc(size).is_ok();
                assert!(
                    !grants(&case.pool) || grants(&end),
                    "{place}: {size} spoilt"
                );
            }
            seen.freed += 1;
            seen.blocks += case.offsets.len();
        }
        number => {
            assert!(end == case.pool, "{place}: refused and changed");
            seen.by_number[number as usize] += 1;
            let at_once = |offset| free_sound(&mut case.pool.clone(), offset);
            let seven = Err(reference::Refusal::NotAStart);
            if number == 6 && at_once(case.offsets[answer as u32 as usize]) == seven {
                seen.released += 1;
            }
        }
    }
}

fn times() -> u64 {
    match std::env::var("DANUMRIKAL_TIMES") {
        Ok(times) => times.parse().expect("DANUMRIKAL_TIMES is a number"),
        Err(_) => 1,
    }
}

#[test]
fn lists_in_small_pools() {
    let mut seen = Seen::default();
    for seed in 0..3_000 * times() {
        for pages in [1, 2, 3, 12] {
            for edition in EDITIONS {
                play(seed, edition, pages, &mut seen);
            }
        }
    }
    println!("{seen:?}");
    assert!(seen.freed > 5_000 && seen.blocks > 30_000 && seen.released > 500);
    for number in [3, 5, 6, 7] {
        assert!(seen.by_number[number] > 1_500, "{number} came seldom");
    }
}

#[test]
fn lists_in_large_pools() {
    let mut seen = Seen::default();
    for seed in 0..40 * times() {
        for pages in [64, 256] {
            for edition in EDITIONS {
                play(seed, edition, pages, &mut seen);
            }
        }
    }
    println!("{seen:?}");
    assert!(seen.freed > 20);
}

/// Every live block of a pool in one list, and at each place of it offsets that
/// cannot be freed there: those before it again, the bytes behind their starts,
/// the map's own chunks and one past the pages.
#[test]
fn a_bad_offset_at_each_place() {
    let mut refused = [0; 8];
    for seed in 0..60 * times() {
        for edition in EDITIONS {
            let rng = &mut Rng::new(seed);
            let Case { pool, .. } = case(rng, edition, 12);
            let Some(live) = live_blocks(&pool) else {
                continue;
            };
            let mut live: Vec<u32> = live.into_keys().collect();
            shuffle(rng, &mut live);
            for place in 0..=live.len() {
                let mut bad = vec![12 * 4_096];
                bad.extend(live[..place].iter().flat_map(|&at| {
                    let page = at & !4_095;
                    [at, at + 1, at + 4_096, page, page + 8]
                }));
                for stray in bad {
                    let mut offsets = live.clone();
                    offsets.insert(place, stray);
                    let case = Case {
                        pool: pool.clone(),
                        offsets,
                    };
                    let (answer, end) = case.freed(proved);
                    assert!(
                        case.freed(second) == (answer, end),
                        "seed {seed}, edition {}: {stray} at {place} of {live:?}",
                        edition.number
                    );
                    refused[(answer >> 56) as usize] += 1;
                }
            }
        }
    }
    println!("{refused:?}");
    assert!(refused[5] > 1_000 && refused[6] > 20_000 && refused[7] > 20_000);
}

/// A largest pool full of blocks of mixed sizes, given back in one list, and
/// refused for its first offset at the end.
#[test]
fn a_long_list() {
    for edition in EDITIONS {
        let rng = &mut Rng::new(1);
        let mut pool = vec![0; edition.length(4_096)];
        reference::format(&mut pool, edition.number).expect("a length that holds pages");
        let mut offsets = Vec::new();
        while let Ok(block) = alloc_sound(&mut pool, mixed_size(rng)) {
            offsets.push(block);
        }
        shuffle(rng, &mut offsets);
        assert!(offsets.len() > 20_000);
        let mut case = Case { pool, offsets };
        let (answer, end) = case.freed(proved);
        assert_eq!(answer, case.offsets.len() as u64);
        assert!((answer, end) == case.freed(second));
        case.offsets.push(case.offsets[0]);
        let (answer, end) = case.freed(proved);
        assert_eq!(answer, word(6, case.offsets.len() as u32 - 1));
        assert!(end == case.pool);
    }
}

#[test]
fn an_empty_list_is_refused_on_an_unsound_pool() {
    for edition in EDITIONS {
        let mut pool = vec![0; edition.length(1)];
        let unsound = Failed {
            place: 0,
            refusal: Refusal::NotSound,
        };
        assert_eq!(Pool::new(&mut pool).free_all(&[]), Err(unsound));
        assert_eq!(Pool::new(&mut pool).free_all(&[Offset(7)]), Err(unsound));
        reference::format(&mut pool, edition.number).expect("a length that holds a page");
        assert_eq!(Pool::new(&mut pool).free_all(&[]), Ok(0));
    }
}

/// A whole page of chunks, and one of their offsets at the end again.
#[test]
fn a_packed_page_given_back_in_one_list() {
    for edition in EDITIONS {
        let mut pool = vec![0; edition.length(2)];
        reference::format(&mut pool, edition.number).expect("a length that holds pages");
        let mut pool = Pool::new(&mut pool);
        let mut chunks: Vec<_> = (0..504).map(|_| pool.alloc(8).expect("room")).collect();
        chunks.push(Offset(65));
        let stray = Failed {
            place: 504,
            refusal: Refusal::NotTaken,
        };
        assert_eq!(pool.free_all(&chunks), Err(stray));
        assert_eq!(
            pool.free_all(&chunks[1..]).map_err(|failed| failed.refusal),
            Err(Refusal::NotAStart)
        );
        assert_eq!(pool.free_all(&chunks[..504]), Ok(504));
        assert_eq!(pool.alloc(8_192), Ok(Offset(0)));
    }
}

/// Programs with one fault each: the second program's call, done wrong.
const DOUBLES: [(&str, Program); 7] = [
    ("lets repeats through", |pool, offsets| {
        let mut once = Vec::new();
        for &offset in offsets {
            if !once.contains(&offset) {
                once.push(offset);
            }
        }
        second(pool, &once)
    }),
    ("answers 7 in an emptied page", |pool, offsets| {
        let entry = pool.to_vec();
        let answer = second(pool, offsets);
        if answer >> 56 != 6 {
            return answer;
        }
        match free_sound(&mut entry.clone(), offsets[answer as u32 as usize]) {
            Err(reference::Refusal::NotAStart) => word(7, answer as u32),
            _ => answer,
        }
    }),
    ("does not put back what it freed", |pool, offsets| {
        let answer = second(pool, offsets);
        if answer >> 56 != 0 && answer >> 56 != 3 {
            second(pool, &offsets[..answer as u32 as usize]);
        }
        answer
    }),
    ("counts places from 1", |pool, offsets| {
        match second(pool, offsets) {
            answer if answer >> 56 == 0 => answer,
            answer => answer + 1,
        }
    }),
    ("frees an empty list of any pool", |pool, offsets| {
        if offsets.is_empty() {
            return 0;
        }
        second(pool, offsets)
    }),
    ("frees in the other order", |pool, offsets| {
        let turned: Vec<_> = offsets.iter().rev().copied().collect();
        match second(pool, &turned) {
            answer if answer >> 56 == 0 => answer,
            _ => second(pool, offsets),
        }
    }),
    ("answers bytes for blocks", |pool, offsets| {
        match second(pool, offsets) {
            answer if answer >> 56 == 0 => answer * 8,
            answer => answer,
        }
    }),
];

#[test]
fn every_double_is_caught() {
    for (name, double) in DOUBLES {
        let mut cases =
            (0..600).map(|seed| case(&mut Rng::new(seed), EDITIONS[seed as usize % 2], 3));
        let caught = cases.any(|case| case.freed(double) != case.freed(second));
        assert!(caught, "a program that {name} was not found out");
    }
}
