use std::fmt;

use support::Edition;

/// The pool of a game, and the bytes that are callers'.
#[derive(Clone, Copy, Debug, PartialEq, Eq)]
pub struct Setting {
    /// Of all bytes that callers write, and of those before format.
    pub seed: u64,
    pub edition: Edition,
    pub pages: usize,
    pub tail: usize,
    /// Whether callers' bytes and the tail change before each call.
    pub scrambled: bool,
}

/// What happens in one turn of a game.
#[derive(Clone, Copy, Debug, PartialEq, Eq)]
pub enum Turn {
    Alloc(u32),
    Free(u32),
    /// Frees the block that this earlier turn took. It names the turn and not
    /// the offset, so that it still means the same block when turns between
    /// the two are left out; where no block was taken, nothing happens.
    FreeOf(usize),
    /// Turns over bits of the word at a byte of the records and maps.
    Damage {
        at: usize,
        bits: u64,
    },
    /// Mends into another slice, which is the pool from then on, unless that is
    /// refused.
    Mend,
}

/// A list of turns that can be played again. Each turn keeps its number when
/// others are left out.
#[derive(Clone, Debug, PartialEq, Eq)]
pub struct Case {
    pub setting: Setting,
    pub turns: Vec<(usize, Turn)>,
}

impl fmt::Display for Setting {
    fn fmt(&self, f: &mut fmt::Formatter<'_>) -> fmt::Result {
        let Setting {
            seed, pages, tail, ..
        } = self;
        let edition = self.edition.number;
        let written = if self.scrambled { "changed" } else { "kept" };
        write!(
            f,
            "edition {edition}, pages {pages}, tail {tail}, seed {seed}, callers' bytes {written} between calls"
        )
    }
}
