//! Nanoseconds of one validation: the proved one, and what it is measured by.

use std::hint::black_box;

use danumrikal::{check, Rule};
use support::{best_in_turn, mixed_size, Rng, ONE};
use yardstick::packed;

const ROUNDS: usize = 25;

/// A pool filled with blocks of mixed sizes until one is refused: no page is
/// free, and runs are of one page.
fn mixed(pages: usize) -> Vec<u8> {
    let mut pool = vec![0; ONE.length(pages)];
    packed::format(&mut pool).expect("a length that holds pages");
    let mut rng = Rng::new(1);
    for _ in 0..pages * 40 {
        if packed::alloc(&mut pool, mixed_size(&mut rng)).is_err() {
            break;
        }
    }
    pool
}

/// Validates the pool so many times, and answers the sum of the broken rules.
fn times<'a>(
    calls: usize,
    pool: &'a [u8],
    broken_rule: impl Fn(&[u8]) -> u8 + 'a,
) -> impl FnMut() -> u64 + 'a {
    move || {
        (0..calls)
            .map(|_| u64::from(broken_rule(black_box(pool))))
            .sum()
    }
}

fn main() {
    println!("pages    proved   packed   second    proved/packed  proved/second");
    for pages in [1, 12, 64, 256, 4_096] {
        let pool = &mixed(pages);
        let calls = 200_000 / pages + 100;
        let best = best_in_turn(
            ROUNDS,
            [
                &mut times(calls, pool, |pool| {
                    check(pool).err().map_or(0, Rule::number)
                }),
                &mut times(calls, pool, packed::broken_rule),
                &mut times(calls, pool, reference::broken_rule),
            ],
        );
        let [proved, packed, second] = best.map(|time| time / calls as f64);
        println!(
            "{pages:5}  {proved:8.1} {packed:8.1} {second:8.1}    {:13.2}  {:13.2}",
            proved / packed,
            proved / second
        );
    }
}
