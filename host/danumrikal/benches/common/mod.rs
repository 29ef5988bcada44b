//! Pools for the benchmarks.

use support::{mixed_size, Rng};

/// A pool filled with blocks of mixed sizes, every third of them freed again.
pub fn filled(edition: u8, length: usize) -> Vec<u8> {
    let mut pool = vec![0; length];
    reference::format(&mut pool, edition).expect("a length that holds pages");
    let mut rng = Rng::new(1);
    let mut blocks = Vec::new();
    while let Ok(block) = reference::alloc_sound(&mut pool, mixed_size(&mut rng)) {
        blocks.push(block);
    }
    for block in blocks.into_iter().step_by(3) {
        reference::free_sound(&mut pool, block).expect("a live block");
    }
    pool
}
