//! What a list of frees costs by its length, in a pool of 4,096 pages with a
//! million blocks: freed, and refused for its last offset. One validation, which
//! each list pays, is printed beside it and taken off.

use std::time::Instant;

use danumrikal::{check, Offset, Pool};
use support::{Rng, ONE};

const ROUNDS: usize = 15;
const BLOCKS: usize = 1_000_000;

/// Nanoseconds of the best of many rounds; what a round does first is not counted.
fn best<S>(mut first: impl FnMut() -> S, mut timed: impl FnMut(S)) -> f64 {
    (0..ROUNDS)
        .map(|_| {
            let ready = first();
            let start = Instant::now();
            timed(ready);
            start.elapsed().as_nanos() as f64
        })
        .fold(f64::INFINITY, f64::min)
}

fn main() {
    let mut pool = vec![0; ONE.length(4_096)];
    reference::format(&mut pool, 1).expect("a length that holds pages");
    let mut blocks: Vec<_> = (0..BLOCKS)
        .map(|_| Offset(reference::alloc_sound(&mut pool, 8).expect("room")))
        .collect();
    let mut rng = Rng::new(1);
    for last in (1..BLOCKS).rev() {
        blocks.swap(last, rng.below(last as u64 + 1) as usize);
    }
    let validation = best(|| (), |()| check(&pool).expect("a sound pool"));
    println!("one validation: {:.1} µs", validation / 1_000.0);
    println!("                 freed               refused at the last");
    println!("  offsets         µs   ns an offset         µs   ns an offset");
    for count in [100, 10_000, 1_000_000] {
        let list = &blocks[..count];
        let freed = best(
            || pool.clone(),
            |mut pool| assert_eq!(Pool::new(&mut pool).free_all(list), Ok(count as u32)),
        );
        let twice: Vec<_> = list.iter().chain(&list[..1]).copied().collect();
        let mut same = pool.clone();
        let refused = best(
            || (),
            |()| assert!(Pool::new(&mut same).free_all(&twice).is_err()),
        );
        assert!(same == pool, "a refused list changed the pool");
        let each = |time: f64| (time - validation) / count as f64;
        println!(
            "{count:9} {:10.1} {:14.1} {:10.1} {:14.1}",
            freed / 1_000.0,
            each(freed),
            refused / 1_000.0,
            each(refused)
        );
    }
}
