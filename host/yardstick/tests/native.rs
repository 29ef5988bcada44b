//! The native machine and the second program give the same answers.

mod calls;

use calls::Calls;
use reference::Call;
use support::{MOST_PAGES, ONE, PAGE};
use yardstick::native::Pool;

fn agree(seed: u64, pages: usize, turns: usize) {
    let mut calls = Calls::new(seed, pages);
    let mut bytes = vec![0; ONE.length(pages)];
    reference::format(&mut bytes, 1).expect("a length that holds pages");
    let mut pool = Pool::new(pages as u16);
    for turn in 0..turns {
        let call = calls.next();
        let (ours, theirs) = match call {
            Call::Alloc(size) => (pool.alloc(size), reference::alloc_sound(&mut bytes, size)),
            Call::Free(offset) => (pool.free(offset), reference::free_sound(&mut bytes, offset)),
        };
        let place = format!("seed {seed}, {pages} pages, turn {turn}, {call:?}");
        assert_eq!(ours, theirs, "{place}");
        if let Ok(answer) = ours {
            calls.granted(call, answer);
        }
    }
    if pages <= 12 {
        refuse_alike(&mut pool, &mut bytes, (pages * PAGE) as u32);
    }
}

/// Tries every offset up to `end` and a little further but those of blocks.
fn refuse_alike(pool: &mut Pool, bytes: &mut [u8], end: u32) {
    let live = reference::live_blocks(bytes).expect("a sound pool");
    for offset in (0..end + 20).filter(|offset| !live.contains_key(offset)) {
        let answer = reference::free_sound(bytes, offset);
        assert_eq!(pool.free(offset), answer, "free {offset}");
    }
}

#[test]
fn calls_agree_at_many_page_counts() {
    for pages in (1..=256).chain([257, 1_000, MOST_PAGES]) {
        agree(pages as u64, pages, 1_000);
    }
}

#[test]
fn calls_agree_in_long_games() {
    for seed in 0..10 {
        for pages in [1, 2, 12, 64, 256] {
            agree(seed, pages, 10_000);
        }
    }
}
