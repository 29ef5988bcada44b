use crate::{Rng, PAGE};

/// What the calls of a game tend to, so that pools fill, empty and break into
/// pieces instead of staying in one middle state.
#[derive(Clone, Copy, Debug)]
pub struct Habit {
    /// The size asked for in half of the allocs.
    pub favourite: u32,
    /// Allocs among sixteen calls.
    pub allocs: u64,
}

impl Habit {
    /// Some habit.
    pub fn any(rng: &mut Rng) -> Habit {
        let favourites = [
            8, 16, 32, 64, 128, 256, 512, 1_024, 2_048, 4_096, 8_192, 12_288,
        ];
        Habit {
            favourite: rng.pick(&favourites),
            allocs: 4 + rng.below(10),
        }
    }

    /// A size to ask a pool of `pages` pages for: of any class, some pages, or
    /// around a limit.
    pub fn size(self, rng: &mut Rng, pages: usize) -> u32 {
        match rng.below(8) {
            0..=3 => self.favourite,
            4 | 5 => rng.below(2_049) as u32 >> rng.below(9),
            6 => 2_049 + rng.below(4 * PAGE as u64) as u32,
            _ => match rng.below(4) {
                0 => rng.pick(&[0, 1, 2_048, 2_049, 4_096, 4_097]),
                1 => rng.below((pages * PAGE + 2) as u64) as u32,
                2 => (pages * PAGE) as u32 + rng.below(2) as u32,
                _ => u32::MAX - rng.below(8_192) as u32,
            },
        }
    }
}

/// An offset that is likely no block's in a pool of `pages` pages: near a live
/// one, or anywhere in the pool and around its end.
pub fn offset(rng: &mut Rng, pages: usize, live: Option<u32>) -> u32 {
    let page = PAGE as u32;
    let end = pages as u32 * page;
    match live.filter(|_| rng.once_in(2)) {
        Some(live) => match rng.below(4) {
            0 => live + 1,
            1 => live ^ 8 << rng.below(9),
            2 => live & !(page - 1),
            _ => live + page,
        },
        None => match rng.below(4) {
            0 => end - rng.below(2) as u32,
            1 => rng.word() as u32,
            2 => rng.below(pages as u64) as u32 * page,
            _ => rng.below(u64::from(end)) as u32,
        },
    }
}

/// A size of any class or a few pages, each about as often.
pub fn mixed_size(rng: &mut Rng) -> u32 {
    let class = rng.below(10);
    1 + rng.below(8 << class) as u32
}
