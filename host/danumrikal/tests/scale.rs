//! Pools of thousands of pages, well filled and broken into pieces: the proved
//! pool against the second program, answers after each call and every byte now
//! and then, and a batch on what the calls leave. `DANUMRIKAL_TIMES` makes the
//! games so many times as long.

use danumrikal::{Answer, Edition, Offset, Pool, Request};
use support::{Rng, PAGE};

const CALLS: u64 = 20_000;

fn times() -> u64 {
    match std::env::var("DANUMRIKAL_TIMES") {
        Ok(times) => times.parse().expect("DANUMRIKAL_TIMES is a number"),
        Err(_) => 1,
    }
}

/// Chunks of all classes, single pages, and runs of up to a sixteenth of the pool.
fn size(rng: &mut Rng, pages: usize) -> u32 {
    let most = match rng.below(4) {
        0 | 1 => 8 << rng.below(9),
        2 => PAGE as u64,
        _ => (PAGE * pages / 16) as u64,
    };
    1 + rng.below(most) as u32
}

struct Pair {
    proved: Vec<u8>,
    second: Vec<u8>,
    /// Live blocks by their offsets.
    live: Vec<u32>,
}

impl Pair {
    fn alloc(&mut self, size: u32) -> Result<u32, u8> {
        let ours = Pool::new(&mut self.proved).alloc(size);
        let ours = ours.map(|offset| offset.0).map_err(|why| why.number());
        let theirs = reference::alloc(&mut self.second, size).map_err(|why| why.number());
        assert_eq!(ours, theirs, "alloc {size}");
        self.live.extend(ours);
        ours
    }

    fn free(&mut self, offset: u32) {
        let ours = Pool::new(&mut self.proved).free(Offset(offset));
        let theirs = reference::free(&mut self.second, offset);
        assert_eq!(
            ours.map_err(|why| why.number()),
            theirs.map_err(|why| why.number()),
            "free {offset}"
        );
    }
}

impl Pair {
    /// Takes and gives at random, some blocks twice, under one validation.
    fn batch(&mut self, rng: &mut Rng, pages: usize) {
        let requests: Vec<Request> = (0..CALLS)
            .map(|_| match rng.below(2) {
                0 => Request::alloc(size(rng, pages)),
                _ => Request::free(Offset(rng.pick(&self.live))),
            })
            .collect();
        let words: Vec<u64> = requests.iter().map(|request| request.word()).collect();
        let mut ours = vec![Answer::default(); requests.len()];
        let mut theirs = vec![0; words.len()];
        assert_eq!(
            Pool::new(&mut self.proved).batch(&requests, &mut ours),
            Ok(())
        );
        assert!(reference::batch(&mut self.second, &words, &mut theirs).is_ok());
        for ((request, ours), theirs) in requests.iter().zip(ours).zip(theirs) {
            assert_eq!(ours.word(), theirs, "{request}");
        }
        assert!(self.proved == self.second, "after a batch the pools differ");
    }
}

fn play(edition: Edition, pages: usize, seed: u64) {
    let mut rng = Rng::new(seed);
    let bytes = vec![0xa5; edition.length(pages) + 100];
    let mut pair = Pair {
        proved: bytes.clone(),
        second: bytes,
        live: Vec::new(),
    };
    let formatted = Pool::new(&mut pair.proved).format(edition);
    assert_eq!(formatted, Ok(pages as u32));
    let formatted = reference::format(&mut pair.second, edition.number());
    assert_eq!(formatted, Ok(pages as u32));
    let mut last = 0;
    let mut refused = 0;
    for call in 0..CALLS * times() {
        // filled first, then broken into pieces
        if rng.below(8) < if call % 1_000 < 500 { 6 } else { 3 } || pair.live.is_empty() {
            match pair.alloc(size(&mut rng, pages)) {
                Ok(offset) => last = last.max(offset),
                Err(_) => refused += 1,
            }
        } else if rng.once_in(20) {
            pair.free(rng.below((PAGE * pages + 20) as u64) as u32);
        } else {
            let place = rng.below(pair.live.len() as u64) as usize;
            let offset = pair.live.swap_remove(place);
            pair.free(offset);
        }
        if call % 500 == 0 {
            assert!(pair.proved == pair.second, "call {call}: the pools differ");
        }
    }
    assert!(pair.proved == pair.second, "the pools differ");
    assert!(refused > 0, "the pool never was full");
    assert!(
        u64::from(last) > (PAGE * pages) as u64 * 9 / 10,
        "the last pages stayed free"
    );
    let view = reference::shown(&pair.second).expect("a pool's length");
    let runs = view.free_runs.len();
    assert!(runs > 20, "only {runs} free runs");
    pair.batch(&mut rng, pages);
}

#[test]
fn a_thousand_pages() {
    for seed in 0..2 {
        for edition in [Edition::One, Edition::Two] {
            play(edition, 1_000, seed);
        }
    }
}

#[test]
fn the_largest_pools() {
    for edition in [Edition::One, Edition::Two] {
        play(edition, 4_096, 7);
    }
}
