//! Calls from a fixed seed: they follow a habit, fail at times, and free live
//! blocks and other offsets.

use reference::Call;
use support::{offset, Habit, Rng};

pub struct Calls {
    pub rng: Rng,
    pages: usize,
    habit: Habit,
    live: Vec<u32>,
}

impl Calls {
    pub fn new(seed: u64, pages: usize) -> Calls {
        let mut rng = Rng::new(seed);
        let habit = Habit::any(&mut rng);
        Calls {
            rng,
            pages,
            habit,
            live: Vec::new(),
        }
    }

    /// The next call.
    pub fn next(&mut self) -> Call {
        if self.rng.once_in(200) {
            self.habit = Habit::any(&mut self.rng);
        }
        if self.rng.below(16) < self.habit.allocs {
            return Call::Alloc(self.habit.size(&mut self.rng, self.pages));
        }
        let at = self.rng.below(self.live.len().max(1) as u64) as usize;
        let live = self.live.get(at).copied();
        match live.filter(|_| !self.rng.once_in(8)) {
            Some(live) => Call::Free(live),
            None => Call::Free(offset(&mut self.rng, self.pages, live)),
        }
    }

    /// Notes that a call was granted with this answer.
    pub fn granted(&mut self, call: Call, answer: u32) {
        match call {
            Call::Alloc(_) => self.live.push(answer),
            Call::Free(offset) => self.live.retain(|live| *live != offset),
        }
    }
}
