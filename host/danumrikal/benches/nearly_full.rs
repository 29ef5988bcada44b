//! Nanoseconds of an alloc and a free of the last free chunk of a page, class by
//! class: where the search for a free chunk has the longest way.

use danumrikal::{Offset, Pool};
use support::{best_in_turn, ONE};
use yardstick::packed;

const CALLS: usize = 20_000;
const ROUNDS: usize = 25;

/// A pool of one page, all chunks of which are taken but the last.
fn nearly_full(size: u32) -> Vec<u8> {
    let mut pool = vec![0; ONE.length(1)];
    packed::format(&mut pool).expect("a length that holds a page");
    let mut last = 0;
    while let Ok(offset) = packed::alloc(&mut pool, size) {
        last = offset;
    }
    packed::free(&mut pool, last).expect("taken a moment ago");
    pool
}

/// Takes the chunk and gives it back, again and again, and answers the sum of the offsets.
fn again<'a, E: std::fmt::Debug>(
    mut pool: Vec<u8>,
    size: u32,
    alloc: impl Fn(&mut [u8], u32) -> Result<u32, E> + 'a,
    free: impl Fn(&mut [u8], u32) -> Result<u32, E> + 'a,
) -> impl FnMut() -> u64 + 'a {
    move || {
        (0..CALLS)
            .map(|_| {
                let offset = alloc(&mut pool, size).expect("one chunk is free");
                free(&mut pool, offset).expect("taken a moment ago");
                u64::from(offset)
            })
            .sum()
    }
}

fn main() {
    println!("size     proved   packed   second    proved/packed  proved/second");
    for size in [8, 16, 32, 64, 128, 256, 512, 1024, 2048] {
        let pool = nearly_full(size);
        let best = best_in_turn(
            ROUNDS,
            [
                &mut again(
                    pool.clone(),
                    size,
                    |pool, size| Pool::new(pool).alloc(size).map(|offset| offset.0),
                    |pool, offset| Pool::new(pool).free(Offset(offset)),
                ),
                &mut again(pool.clone(), size, packed::alloc, packed::free),
                &mut again(pool, size, reference::alloc, reference::free),
            ],
        );
        let [proved, packed, second] = best.map(|time| time / CALLS as f64);
        println!(
            "{size:5}  {proved:8.1} {packed:8.1} {second:8.1}    {:13.2}  {:13.2}",
            proved / packed,
            proved / second
        );
    }
}
