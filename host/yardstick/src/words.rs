//! Requests and answers as words, for batches.

use crate::Refusal;

/// The upper half of a request that frees; of one that allocs it is 0.
const FREE: u64 = 1 << 31;

/// Serves the requests in order: words in, words out.
#[inline]
pub fn serve<P: ?Sized>(
    pool: &mut P,
    requests: &[u64],
    answers: &mut [u64],
    alloc: impl Fn(&mut P, u32) -> Result<u32, Refusal>,
    free: impl Fn(&mut P, u32) -> Result<u32, Refusal>,
) {
    for (&request, answer) in requests.iter().zip(answers) {
        let served = match request >> 32 {
            0 => alloc(pool, request as u32),
            FREE => free(pool, request as u32),
            _ => Err(Refusal::Unreadable),
        };
        *answer = match served {
            Ok(value) => u64::from(value),
            Err(refusal) => u64::from(refusal.number()) << 56,
        };
    }
}
