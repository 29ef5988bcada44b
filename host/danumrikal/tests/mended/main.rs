//! Mended pools of both editions: the proved mender and the proved checker against
//! the second program's, for each kind of damage and for copies by any hand, right
//! and wrong; and calls that go on in a copy.
//!
//! The seeds are fixed. `DANUMRIKAL_TIMES=10` makes ten times as many.

#[path = "../common/mod.rs"]
mod common;
mod doubles;
mod hands;

use common::{goes_on, pool, times};
use danumrikal::{check, check_mended, mend};
use hands::{another_hand, lose, SPOILS, WRONGS};
use reference::{alloc_sound, format, live_blocks, LiveSet};
use support::{mixed_size, Edition, Rng, EDITIONS, ONE, TWO};

/// The number that the second program refuses a copy with, or 0.
fn second_check(damaged: &[u8], copy: &[u8]) -> u8 {
    let answer = reference::check_mended(damaged, copy);
    answer.err().map_or(0, |refusal| refusal.number())
}

fn second_mend(damaged: &[u8], target: &mut [u8]) -> Result<u32, u8> {
    reference::mend(damaged, target).map_err(|refusal| refusal.number())
}

/// The number that both programs refuse a copy with, or 0; neither slice changes.
fn checked(damaged: &[u8], copy: &[u8], what: &str) -> u8 {
    let before = (damaged.to_vec(), copy.to_vec());
    let answer = check_mended(damaged, copy);
    assert!(before.0 == damaged && before.1 == copy, "{what}");
    let number = answer.err().map_or(0, |refusal| refusal.number());
    assert_eq!(number, second_check(damaged, copy), "{what}");
    number
}

/// What both programs answer, and the target as both leave it: a refused call
/// does not change it, nor any call the damaged pool.
fn mended(damaged: &[u8], target: &[u8], what: &str) -> (Result<u32, u8>, Vec<u8>) {
    let before = damaged.to_vec();
    let [mut ours, mut theirs] = [target.to_vec(), target.to_vec()];
    let answer = mend(damaged, &mut ours).map_err(|refusal| refusal.number());
    assert!(before == damaged, "{what}");
    assert_eq!(answer, second_mend(damaged, &mut theirs), "{what}");
    assert!(ours == theirs, "{what}: the copies differ");
    assert!(answer.is_ok() || ours == target, "{what}");
    (answer, ours)
}

/// A pool after some calls, its live blocks and page count, and its edition,
/// which is that of the seed.
fn filled(seed: u64, rng: &mut Rng) -> (Vec<u8>, LiveSet, usize, Edition) {
    let edition = EDITIONS[seed as usize % 2];
    let (pool, live, pages) = pool(rng, edition, 12);
    (pool, live, pages, edition)
}

/// Whatever is lost that tells no live block, the copy has the blocks that calls
/// and answers told, the bytes of pages and tail, and calls go on.
#[test]
fn what_is_lost_is_mended() {
    for seed in 0..3_000 * times() {
        let what = format!("seed {seed}");
        let mut rng = Rng::new(seed);
        let (mut damaged, live, pages, edition) = filled(seed, &mut rng);
        lose(&mut rng, &mut damaged);
        let target = rng.bytes(damaged.len());
        let (answer, mut copy) = mended(&damaged, &target, &what);
        assert_eq!(answer, Ok(pages as u32), "{what}");
        assert_eq!(checked(&damaged, &copy, &what), 0, "{what}");
        assert_eq!(check(&copy), Ok(()), "{what}");
        assert_eq!(live_blocks(&copy).as_ref(), Some(live.blocks()), "{what}");
        let first = edition.page_at(pages, 0);
        assert!(copy[first..] == damaged[first..], "{what}");
        // Nothing is left to mend.
        let (answer, again) = mended(&copy, &target, &what);
        assert_eq!(answer, Ok(pages as u32), "{what}");
        assert!(again == copy, "{what}");
        if seed % 10 < 2 {
            goes_on(&mut rng, &mut copy, live, &what);
        }
    }
}

#[test]
fn a_copy_by_another_hand_is_accepted() {
    for seed in 0..2_000 * times() {
        let what = format!("seed {seed}");
        let mut rng = Rng::new(1_000_000 + seed);
        let (mut damaged, live, ..) = filled(seed, &mut rng);
        let sound = damaged.clone();
        lose(&mut rng, &mut damaged);
        let mut copy = another_hand(&mut rng, &damaged);
        assert_eq!(checked(&damaged, &copy, &what), 0, "{what}");
        // So is the pool before the loss, and each for a copy of the others.
        let [damaged, whole, other] = [&damaged, &sound, &copy];
        for (old, new) in [(damaged, whole), (whole, other), (other, whole)] {
            assert_eq!(checked(old, new, &what), 0, "{what}");
        }
        if seed % 10 < 2 {
            goes_on(&mut rng, &mut copy, live, &what);
        }
    }
}

#[test]
fn what_tells_blocks_is_beyond_mending() {
    for (name, spoil) in SPOILS {
        let mut spoilt = 0;
        for seed in 0..300 * times() {
            let what = format!("{name}, seed {seed}");
            let mut rng = Rng::new(2_000_000 + seed);
            let (sound, ..) = filled(seed, &mut rng);
            let mut damaged = sound.clone();
            if !spoil(&mut rng, &mut damaged) {
                continue;
            }
            spoilt += 1;
            if rng.once_in(2) {
                lose(&mut rng, &mut damaged);
            }
            let target = rng.bytes(damaged.len());
            assert_eq!(mended(&damaged, &target, &what).0, Err(13), "{what}");
            let mut random = target.clone();
            random[0] = damaged[0];
            for copy in [&sound, &damaged, &random] {
                assert_eq!(checked(&damaged, copy, &what), 13, "{what}");
            }
            // Another length comes first.
            assert_eq!(mended(&damaged, &target[1..], &what).0, Err(12), "{what}");
            assert_eq!(checked(&damaged, &sound[1..], &what), 12, "{what}");
        }
        println!("{name}: {spoilt}");
        assert!(spoilt > 50, "{name}: only {spoilt}");
    }
}

/// Each wrong copy earns its number, and of two wrongs the one that is tried
/// first: 12, then 3, then 14.
#[test]
fn wrong_copies() {
    let order = |number| [12, 3, 14].iter().position(|tried| *tried == number);
    for (place, (name, number, wrong)) in WRONGS.into_iter().enumerate() {
        let mut seen = 0;
        for seed in 0..300 * times() {
            let mut rng = Rng::new(3_000_000 + seed);
            let (mut damaged, ..) = filled(seed, &mut rng);
            lose(&mut rng, &mut damaged);
            let mut copy = another_hand(&mut rng, &damaged);
            // Wrongs that are tried late come first, while the copy can bear them.
            let (other, late, also) = rng.pick(&WRONGS[place..]);
            let both = order(late) > order(number) && also(&mut rng, &mut copy);
            if wrong(&mut rng, &mut copy) {
                seen += 1;
                let what = format!("{name}, {other} too: {both}, seed {seed}");
                assert_eq!(checked(&damaged, &copy, &what), number, "{what}");
            }
        }
        println!("{name}: {seen}");
        assert!(seen > 50, "{name}: only {seen}");
    }
}

/// Any lengths and first bytes, equal and unequal, of pools and of no pools.
#[test]
fn lengths_and_editions() {
    for pages in [1, 2, 12, 256, 4_096] {
        for edition in EDITIONS {
            let what = format!("{pages} pages, {edition:?}");
            let mut pool = vec![0xa5; edition.length(pages) + 7];
            format(&mut pool, edition.number).expect("a length that holds pages");
            let len = pool.len();
            assert_eq!(mended(&pool, &vec![0x5a; len], &what).0, Ok(pages as u32));
            assert_eq!(checked(&pool, &pool, &what), 0, "{what}");
            for other in [0, 1, edition.shortest(), len - 7, len - 1, len + 1] {
                let target = vec![edition.number; other];
                assert_eq!(mended(&pool, &target, &what).0, Err(12), "{what}, {other}");
                assert_eq!(checked(&pool, &target, &what), 12, "{what}, {other}");
                assert_eq!(checked(&target, &pool, &what), 12, "{what}, {other}");
            }
        }
    }
    for edition in EDITIONS {
        for len in [1, 7, 8, edition.head(), edition.shortest() - 1] {
            let what = format!("{len} bytes, {edition:?}");
            let bytes = vec![edition.number; len];
            assert_eq!(mended(&bytes, &bytes, &what).0, Err(13), "{what}");
            assert_eq!(checked(&bytes, &bytes, &what), 13, "{what}");
        }
        let long = vec![edition.number; edition.longest() + 1];
        assert_eq!(mended(&long, &long, "too long").0, Err(13));
        assert_eq!(checked(&long, &long, "too long"), 13);
    }
    assert_eq!(mended(&[], &[], "nothing").0, Err(13));
    assert_eq!(checked(&[], &[], "nothing"), 13);
}

#[test]
fn every_first_byte() {
    for edition in EDITIONS {
        let mut sound = vec![0; edition.length(3) + 80];
        format(&mut sound, edition.number).expect("three pages");
        alloc_sound(&mut sound, 64).expect("room");
        let with = |first: u8| {
            let mut pool = sound.clone();
            pool[0] = first;
            pool
        };
        for first in (0..=255).filter(|first| *first != edition.number) {
            let what = format!("{edition:?}, {first}");
            assert_eq!(mended(&with(first), &sound, &what).0, Err(13), "{what}");
            assert_eq!(checked(&with(first), &with(first), &what), 13, "{what}");
            assert_eq!(checked(&with(first), &sound, &what), 12, "{what}");
            assert_eq!(checked(&sound, &with(first), &what), 12, "{what}");
        }
    }
}

/// Pools of many pages, well filled, with blocks of all sizes.
#[test]
fn large_pools() {
    for (edition, pages) in [(ONE, 256), (TWO, 256), (ONE, 4_096), (TWO, 4_096)] {
        let mut rng = Rng::new(pages as u64);
        let mut damaged = rng.bytes(edition.length(pages) + 100);
        format(&mut damaged, edition.number).expect("a length that holds pages");
        let mut taken = Vec::new();
        for _ in 0..40 * pages {
            taken.extend(alloc_sound(&mut damaged, mixed_size(&mut rng)));
            if rng.once_in(3) {
                let place = rng.below(taken.len() as u64) as usize;
                let freed = reference::free_sound(&mut damaged, taken.swap_remove(place));
                freed.expect("a live block");
            }
        }
        let blocks = live_blocks(&damaged);
        for seed in 0..4 {
            let what = format!("{edition:?}, {pages} pages, {seed}");
            lose(&mut rng, &mut damaged);
            let (answer, copy) = mended(&damaged, &vec![0; damaged.len()], &what);
            assert_eq!(answer, Ok(pages as u32), "{what}");
            assert_eq!(checked(&damaged, &copy, &what), 0, "{what}");
            assert_eq!(live_blocks(&copy), blocks, "{what}");
            let other = another_hand(&mut rng, &damaged);
            assert_eq!(checked(&damaged, &other, &what), 0, "{what}");
            let last = copy.len() - 1;
            let mut wrong = copy;
            wrong[last] ^= 1;
            assert_eq!(checked(&damaged, &wrong, &what), 14, "{what}");
        }
    }
}
