//! Which calls are tried, on which pools: from fixed seeds, the same in every
//! run.

use std::fmt;

use command::view::{live_blocks, spans, Sums};
use danumrikal::{Answer, Edition, Offset, Pool, Refusal, Request};
use support::{Habit, Rng};

const PAGES: usize = 12;
/// Requests of a batch.
const BATCH: usize = 16;
/// Offsets of a list.
const LIST: usize = 8;

/// The calls, by what they change.
#[derive(Clone, Copy, PartialEq, Eq)]
pub enum Kind {
    AllocChunk,
    AllocCut,
    AllocPages,
    FreeChunk,
    FreeDrop,
    FreePages,
    Batch,
    List,
}

impl Kind {
    pub const ALL: [Kind; 8] = [
        Kind::AllocChunk,
        Kind::AllocCut,
        Kind::AllocPages,
        Kind::FreeChunk,
        Kind::FreeDrop,
        Kind::FreePages,
        Kind::Batch,
        Kind::List,
    ];
}

impl fmt::Display for Kind {
    fn fmt(&self, f: &mut fmt::Formatter<'_>) -> fmt::Result {
        f.write_str(match self {
            Kind::AllocChunk => "alloc of a chunk of a page that is cut already",
            Kind::AllocCut => "alloc of a chunk of a new page",
            Kind::AllocPages => "alloc of pages",
            Kind::FreeChunk => "free of a chunk, the page stays",
            Kind::FreeDrop => "free of a page's last chunk",
            Kind::FreePages => "free of pages",
            Kind::Batch => "batch of 16",
            Kind::List => "list of 8 frees, all or none",
        })
    }
}

/// A call on a pool.
pub struct Trial {
    kind: Kind,
    pub pool: Vec<u8>,
    pub requests: Vec<Request>,
}

impl Trial {
    /// Makes the call.
    pub fn serve(&self, pool: &mut [u8]) {
        let mut answers = [Answer::default(); BATCH];
        let mut offsets = [Offset(0); LIST];
        let granted = match self.kind {
            Kind::Batch => Pool::new(pool).batch(&self.requests, &mut answers).is_ok(),
            Kind::List => {
                for (offset, request) in offsets.iter_mut().zip(&self.requests) {
                    *offset = Offset(request.word() as u32);
                }
                Pool::new(pool).free_all(&offsets).is_ok()
            }
            _ => single(pool, self.requests[0]).is_ok(),
        };
        assert!(granted, "the same call on the same pool");
    }
}

/// A pool with the offsets of its live blocks.
struct Game {
    bytes: Vec<u8>,
    live: Vec<u32>,
}

impl Game {
    /// Some alloc, or the free of some live block.
    fn request(&self, rng: &mut Rng, habit: Habit) -> Request {
        match self.live.len() as u64 {
            live if live > 0 && rng.below(16) >= habit.allocs => {
                Request::free(Offset(self.live[rng.below(live) as usize]))
            }
            _ => Request::alloc(habit.size(rng, PAGES)),
        }
    }

    /// Serves a request; whether it was granted.
    fn serve(&mut self, request: Request) -> bool {
        let answer = single(&mut self.bytes, request);
        match (answer, is_alloc(request)) {
            (Ok(offset), true) => self.live.push(offset),
            (Ok(_), false) => self.live.retain(|&live| live != request.word() as u32),
            (Err(_), _) => return false,
        }
        true
    }
}

fn is_alloc(request: Request) -> bool {
    request == Request::alloc(request.word() as u32)
}

/// A request by the call of its own.
pub fn single(bytes: &mut [u8], request: Request) -> Result<u32, Refusal> {
    let number = request.word() as u32;
    let mut pool = Pool::new(bytes);
    match is_alloc(request) {
        true => pool.alloc(number).map(|offset| offset.0),
        false => pool.free(Offset(number)),
    }
}

/// As many trials of a kind, in both editions by turns.
pub fn trials(kind: Kind, count: usize) -> impl Iterator<Item = Trial> {
    (0..).filter_map(move |seed| trial(kind, seed)).take(count)
}

/// The trial of a seed, if it is one of this kind and every call is granted: a
/// refused one has no after.
fn trial(kind: Kind, seed: u64) -> Option<Trial> {
    let mut rng = Rng::new(seed);
    let habit = Habit::any(&mut rng);
    let edition = match seed % 2 {
        0 => Edition::One,
        _ => Edition::Two,
    };
    let bytes = rng.bytes(edition.length(PAGES));
    let live = Vec::new();
    let mut game = Game { bytes, live };
    let formatted = Pool::new(&mut game.bytes).format(edition);
    formatted.expect("a pool's length");
    for _ in 0..rng.below(200) {
        game.serve(game.request(&mut rng, habit));
    }
    let pool = game.bytes.clone();
    let mut requests = Vec::new();
    let count = match kind {
        Kind::Batch => BATCH,
        Kind::List => LIST,
        _ => 1,
    };
    for _ in 0..count {
        let request = match (kind, game.live.len() as u64) {
            (Kind::List, 0) => return None,
            (Kind::List, live) => Request::free(Offset(game.live[rng.below(live) as usize])),
            _ => game.request(&mut rng, habit),
        };
        requests.push(request);
        if !game.serve(request) {
            return None;
        }
    }
    let same = count > 1 || kind == kind_of(&pool, &game.bytes, requests[0]);
    same.then_some(Trial {
        kind,
        pool,
        requests,
    })
}

/// What a granted call changed.
fn kind_of(before: &[u8], after: &[u8], request: Request) -> Kind {
    let [before, after] = [before, after].map(|bytes| {
        let blocks = live_blocks(bytes).expect("a sound pool");
        let sums = Sums::of(&spans(PAGES, &blocks));
        let cut: usize = sums.classes.iter().map(|sum| sum.pages).sum();
        (sums.taken.pages, cut)
    });
    match (is_alloc(request), before.0 == after.0, before.1 == after.1) {
        (true, false, _) => Kind::AllocPages,
        (true, _, false) => Kind::AllocCut,
        (true, ..) => Kind::AllocChunk,
        (false, false, _) => Kind::FreePages,
        (false, _, false) => Kind::FreeDrop,
        (false, ..) => Kind::FreeChunk,
    }
}
