use std::fmt::Debug;
use std::time::Instant;

use crate::{mixed_size, Rng};

/// Set in a request that frees.
const FREE: u64 = 1 << 63;

/// As many mixed requests, a word each: top bit set to free, low half the size
/// or the offset. An allocator on a fresh pool says which offsets there will be.
pub fn requests<P: ?Sized, E: Debug>(
    count: usize,
    pool: &mut P,
    alloc: impl Fn(&mut P, u32) -> Result<u32, E>,
    free: impl Fn(&mut P, u32) -> Result<u32, E>,
) -> Vec<u64> {
    let mut rng = Rng::new(1);
    let mut live = Vec::new();
    let mut request = || {
        if live.is_empty() || rng.below(100) < 52 {
            let size = mixed_size(&mut rng);
            live.extend(alloc(pool, size));
            u64::from(size)
        } else {
            let at = rng.below(live.len() as u64) as usize;
            let offset = live.swap_remove(at);
            free(pool, offset).expect("a live block");
            FREE | u64::from(offset)
        }
    };
    (0..count).map(|_| request()).collect()
}

/// Serves the requests on a fresh pool, and answers a checksum of offsets, bytes
/// released and refusals' numbers: allocators that follow the same rules have the same.
#[inline]
pub fn serve<P: ?Sized, E>(
    requests: &[u64],
    pool: &mut P,
    alloc: impl Fn(&mut P, u32) -> Result<u32, E>,
    free: impl Fn(&mut P, u32) -> Result<u32, E>,
    number: impl Fn(E) -> u8,
) -> u64 {
    sum_of(requests.iter().map(|&request| {
        let answer = if request & FREE == 0 {
            alloc(pool, request as u32)
        } else {
            free(pool, request as u32)
        };
        match answer {
            Ok(value) => u64::from(value),
            Err(refusal) => u64::from(number(refusal)) << 56,
        }
    }))
}

/// A checksum of answers as words.
#[inline]
pub fn sum_of(answers: impl IntoIterator<Item = u64>) -> u64 {
    let add = |sum: u64, word| sum.wrapping_mul(31).wrapping_add(word);
    answers.into_iter().fold(0, add)
}

/// Nanoseconds that each run takes, the best of several rounds. A round has all
/// of them in turn, so that a busy machine slows none more than the others.
/// All must give the same answer.
pub fn best_in_turn<const N: usize>(
    rounds: usize,
    mut runs: [&mut dyn FnMut() -> u64; N],
) -> [f64; N] {
    let mut best = [f64::INFINITY; N];
    let mut answer = None;
    for _ in 0..rounds {
        for (best, run) in best.iter_mut().zip(&mut runs) {
            let start = Instant::now();
            let given = run();
            *best = best.min(start.elapsed().as_nanos() as f64);
            assert_eq!(*answer.get_or_insert(given), given, "answers differ");
        }
    }
    best
}
