//! A pool whose live blocks are among those of another grants every size that
//! the other grants. Two pools play the same calls, so that their blocks are the
//! same; then one gives back some of them and the other some of these. Their
//! editions are the same or not.
//!
//! The seeds are fixed. `DANUMRIKAL_TIMES=10` plays ten times as many.

use danumrikal::Pool;
use reference::{alloc_sound, free_sound, live_blocks};
use support::{Edition, Habit, Rng, EDITIONS};

/// How often a size was granted by the pool with more blocks, and how often by
/// the other alone.
#[derive(Debug, Default)]
struct Seen {
    by_both: usize,
    by_fewer_alone: usize,
}

fn grants(pool: &[u8], size: u32) -> bool {
    Pool::new(&mut pool.to_vec()).alloc(size).is_ok()
}

fn play(seed: u64, editions: [Edition; 2], pages: usize, seen: &mut Seen) {
    let rng = &mut Rng::new(seed);
    let [mut fewer, mut more] = editions.map(|edition| {
        let mut pool = vec![0; edition.length(pages)];
        reference::format(&mut pool, edition.number).expect("a length that holds pages");
        pool
    });
    let habit = Habit::any(rng);
    let mut taken = Vec::new();
    for _ in 0..rng.below(200) {
        if rng.below(16) < habit.allocs || taken.is_empty() {
            let size = habit.size(rng, pages);
            let answer = alloc_sound(&mut fewer, size);
            assert_eq!(alloc_sound(&mut more, size), answer);
            taken.extend(answer);
        } else {
            let at = taken.swap_remove(rng.below(taken.len() as u64) as usize);
            free_sound(&mut fewer, at).expect("a live block");
            free_sound(&mut more, at).expect("a live block");
        }
    }
    for at in taken {
        if rng.once_in(3) {
            free_sound(&mut fewer, at).expect("a live block");
            if rng.once_in(2) {
                free_sound(&mut more, at).expect("a live block");
            }
        }
    }
    let [few, many] = [&fewer, &more].map(|pool| live_blocks(pool).expect("a sound pool"));
    assert!(few.iter().all(|(at, block)| many.get(at) == Some(block)));
    let sizes = (3..12).map(|shift| 1 << shift);
    for size in sizes.chain((1..=pages as u32).map(|run| run * 4_096)) {
        match (grants(&fewer, size), grants(&more, size)) {
            (true, true) => seen.by_both += 1,
            (true, false) => seen.by_fewer_alone += 1,
            (false, true) => panic!("seed {seed}, {pages} pages: {size} spoilt"),
            (false, false) => {}
        }
    }
}

#[test]
fn fewer_blocks_grant_more() {
    let times = match std::env::var("DANUMRIKAL_TIMES") {
        Ok(times) => times.parse().expect("DANUMRIKAL_TIMES is a number"),
        Err(_) => 1,
    };
    let mut seen = Seen::default();
    for seed in 0..1_000 * times {
        for pages in [1, 2, 3, 12] {
            for editions in EDITIONS.map(|one| EDITIONS.map(|other| [one, other])) {
                for pair in editions {
                    play(seed, pair, pages, &mut seen);
                }
            }
        }
    }
    println!("{seen:?}");
    assert!(seen.by_both > 50_000 && seen.by_fewer_alone > 10_000);
}
