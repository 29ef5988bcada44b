//! The packed machine and the second program agree on answers and on every
//! byte.

mod calls;

use calls::Calls;
use reference::{Call, Refusal};
use support::{Rng, ONE, PAGE, PER_PAGE, TWO};
use yardstick::{native, packed};

type Format = fn(&mut [u8]) -> Result<u32, Refusal>;
type Serve = fn(&mut [u8], u32) -> Result<u32, Refusal>;

/// The second program's format of the edition that the yardstick knows.
fn format_second(pool: &mut [u8]) -> Result<u32, Refusal> {
    reference::format(pool, 1)
}

/// A pool and the functions that work on it.
struct Player {
    pool: Vec<u8>,
    alloc: Serve,
    free: Serve,
}

impl Player {
    fn new(mut pool: Vec<u8>, format: Format, alloc: Serve, free: Serve) -> Player {
        format(&mut pool).expect("a length that holds pages");
        Player { pool, alloc, free }
    }

    fn play(&mut self, call: Call) -> Result<u32, Refusal> {
        match call {
            Call::Alloc(size) => (self.alloc)(&mut self.pool, size),
            Call::Free(offset) => (self.free)(&mut self.pool, offset),
        }
    }
}

fn agree(seed: u64, pages: usize, turns: usize) {
    let mut calls = Calls::new(seed, pages);
    let tail = calls.rng.below(PER_PAGE as u64) as usize;
    let bytes = calls.rng.bytes(ONE.length(pages) + tail);
    let new = |format, alloc, free| Player::new(bytes.clone(), format, alloc, free);
    let mut second = new(format_second, reference::alloc_sound, reference::free_sound);
    let mut others = [
        new(packed::format, packed::alloc, packed::free),
        new(packed::format, packed::alloc_sound, packed::free_sound),
    ];
    for turn in 0..turns {
        let call = calls.next();
        let answer = second.play(call);
        for other in &mut others {
            let place = format!("seed {seed}, {pages} pages, turn {turn}, {call:?}");
            assert_eq!(other.play(call), answer, "{place}");
            assert!(other.pool == second.pool, "{place}: the pools differ");
        }
        if let Ok(answer) = answer {
            calls.granted(call, answer);
        }
    }
}

#[test]
fn calls_agree_in_small_pools() {
    for seed in 0..40 {
        for pages in [1, 2, 3, 12] {
            agree(seed, pages, 1_500);
        }
    }
}

#[test]
fn calls_agree_in_large_pools() {
    for seed in 0..6 {
        agree(seed, 64, 1_500);
        agree(seed, 256, 600);
    }
}

#[test]
fn lengths_agree() {
    let around = |len| len - 150..len + 150;
    let lengths = (0..200)
        .chain(around(ONE.length(1)))
        .chain(around(ONE.length(2)));
    let longest = ONE.longest();
    for length in lengths.chain(longest - 1..longest + 3).chain([2_000_000]) {
        let mut ours = vec![7; length];
        let mut theirs = ours.clone();
        let answer = packed::format(&mut ours);
        assert_eq!(answer, format_second(&mut theirs), "length {length}");
        assert!(ours == theirs, "length {length}: the pools differ");
        let rule = u8::from(answer.is_err());
        assert_eq!(packed::broken_rule(&ours), rule, "length {length}");
    }
}

/// Every offset of pools with pages of all kinds, and some past their end.
#[test]
fn every_offset_is_freed_or_refused_alike() {
    for seed in 0..4 {
        let mut calls = Calls::new(seed, 12);
        let mut pool = vec![0; ONE.length(12)];
        format_second(&mut pool).expect("a length that holds pages");
        for _ in 0..400 {
            let call = calls.next();
            let answer = match call {
                Call::Alloc(size) => reference::alloc_sound(&mut pool, size),
                Call::Free(offset) => reference::free_sound(&mut pool, offset),
            };
            if let Ok(answer) = answer {
                calls.granted(call, answer);
            }
        }
        let (mut ours, mut theirs) = (pool.clone(), pool.clone());
        for offset in (0..12 * PAGE as u32 + 20).chain([u32::MAX]) {
            let answer = packed::free_sound(&mut ours, offset);
            assert_eq!(answer, reference::free_sound(&mut theirs, offset));
            if answer.is_ok() {
                assert!(ours == theirs, "seed {seed}: the pools differ");
                ours.copy_from_slice(&pool);
                theirs.copy_from_slice(&pool);
            }
        }
        assert!(ours == pool && theirs == pool, "a refused call wrote");
    }
}

/// Tallies stop at the largest number.
#[test]
fn tallies_stop() {
    let mut pool = vec![0; ONE.length(1)];
    packed::format(&mut pool).expect("a length that holds a page");
    packed::alloc(&mut pool, PAGE as u32).expect("a free page");
    let tallies = ONE.class_record_at(0) + 8..ONE.class_record_at(1);
    pool[tallies.clone()].fill(0xFF);
    pool[tallies.end - 1] = 0xFE;
    let mut other = pool.clone();
    for _ in 0..3 {
        assert_eq!(packed::alloc(&mut pool, 8), Err(Refusal::NoRoom));
        assert_eq!(reference::alloc(&mut other, 8), Err(Refusal::NoRoom));
        assert!(pool == other, "the tallies differ");
    }
    assert_eq!(pool[tallies], [0xFF; 8]);
}

#[test]
fn unsound_pools_are_refused_and_kept() {
    let bytes = Rng::new(1).bytes(ONE.length(2));
    let mut pool = bytes.clone();
    assert_eq!(packed::alloc(&mut pool, 8), Err(Refusal::NotSound));
    assert_eq!(packed::free(&mut pool, 0), Err(Refusal::NotSound));
    assert!(pool == bytes);
}

/// Rule 1 is the only one that a pool of edition 2 breaks here.
#[test]
fn edition_2_is_unsound() {
    let mut pool = vec![0; TWO.length(2)];
    reference::format(&mut pool, 2).expect("a length that holds pages");
    assert_eq!(packed::broken_rule(&pool), 1);
    assert_eq!(packed::alloc(&mut pool, 8), Err(Refusal::NotSound));
}

/// The request word of a call, at times with a stray bit.
fn word(calls: &mut Calls, call: Call) -> u64 {
    let word = match call {
        Call::Alloc(size) => u64::from(size),
        Call::Free(offset) => 1 << 63 | u64::from(offset),
    };
    let stray = calls.rng.once_in(10);
    word | u64::from(stray) << (32 + calls.rng.below(31))
}

#[test]
fn batches_agree() {
    for seed in 0..20 {
        for pages in [1, 12, 256] {
            let mut calls = Calls::new(seed, pages);
            let mut bytes = calls.rng.bytes(ONE.length(pages));
            packed::format(&mut bytes).expect("a length that holds pages");
            let mut second = bytes.clone();
            let mut native = native::Pool::new(pages as u16);
            for _ in 0..20 {
                let asked: Vec<Call> = (0..100).map(|_| calls.next()).collect();
                let requests: Vec<u64> = asked.iter().map(|call| word(&mut calls, *call)).collect();
                let mut answers = [(); 3].map(|()| [0; 100]);
                let outcomes = [
                    reference::batch(&mut second, &requests, &mut answers[0]),
                    packed::batch(&mut bytes, &requests, &mut answers[1]),
                    native.batch(&requests, &mut answers[2]),
                ];
                assert_eq!(outcomes, [Ok(()); 3]);
                assert_eq!(answers[1], answers[0], "seed {seed}, {pages} pages");
                assert_eq!(answers[2], answers[0], "seed {seed}, {pages} pages");
                assert!(bytes == second, "seed {seed}, {pages} pages");
                for (call, &answer) in asked.into_iter().zip(&answers[0]) {
                    if answer >> 56 == 0 {
                        calls.granted(call, answer as u32);
                    }
                }
            }
            let too_short = Err(Refusal::AnswersTooShort);
            assert_eq!(packed::batch(&mut bytes, &[1], &mut []), too_short);
            assert_eq!(native.batch(&[1], &mut []), too_short);
            bytes[0] = 0;
            assert_eq!(packed::batch(&mut bytes, &[1], &mut []), too_short);
            let unsound = packed::batch(&mut bytes, &[], &mut []);
            assert_eq!(unsound, Err(Refusal::NotSound));
        }
    }
}
