//! Random calls from fixed seeds. After every call the whole slice is as the
//! plain model says byte for byte, and the pool shows what the live set
//! expects, which is fed by arguments and answers alone. Calls go on after a
//! conversion, and after links and counts were lost and mended.

use reference::{
    alloc, alloc_sound, check_mended, convert, format, free, free_sound, live_blocks, mend, peaks,
    shown, validate, Block, Call, LiveSet, Peaks, View,
};

#[path = "support/plain.rs"]
mod plain;

use plain::Plain;
use support::{Edition, Habit, Rng, EDITIONS, ONE, PAGE, PER_PAGE, TWO};

/// Where code runs slowly, fewer calls have to do.
const SLOWNESS: u32 = if cfg!(debug_assertions) { 10 } else { 1 };

/// Bytes of the map inside a page of each class.
const MAP_BYTES: [usize; 9] = [64, 32, 16, 0, 0, 0, 0, 0, 0];

struct Trial {
    rng: Rng,
    edition: Edition,
    pages: usize,
    pool: Vec<u8>,
    plain: Plain,
    live: LiveSet,
    /// What the live set expects now.
    view: View,
    /// What the live sets so far expect, of edition 2.
    peaks: Peaks,
    last_freed: u32,
    granted: [u32; 2],
    refused: [u32; 13],
}

impl Trial {
    fn new(seed: u64, edition: Edition, pages: usize) -> Trial {
        let mut rng = Rng::new(seed);
        let tail = rng.below(PER_PAGE as u64) as usize;
        let mut pool = rng.bytes(edition.length(pages) + tail);
        assert_eq!(format(&mut pool, edition.number), Ok(pages as u32));
        let live = LiveSet::new(pages as u32);
        let view = live.expected();
        let trial = Trial {
            rng,
            edition,
            pages,
            pool,
            plain: Plain::new(edition.number, pages),
            live,
            view,
            peaks: Peaks::new([0; 9]),
            last_freed: 0,
            granted: [0; 2],
            refused: [0; 13],
        };
        assert!(trial.pool[..edition.page_at(pages, 0)] == trial.plain.records());
        assert_eq!(trial.shown_peaks(), trial.peaks.by_class());
        trial
    }

    /// Changes bytes that a caller may change between calls.
    fn scramble(&mut self) {
        // A few pages each time, so that large pools stay quick, and at times
        // all of them.
        for _ in 0..if self.rng.once_in(50) { self.pages } else { 2 } {
            let page = self.rng.below(self.pages as u64) as usize;
            let map = self.view.classes[page].map_or(0, |class| MAP_BYTES[class.index()]);
            let bytes = self.edition.callers_bytes(self.pages, page, map);
            self.rng.fill(&mut self.pool[bytes]);
        }
        let tail = self.edition.length(self.pages);
        self.rng.fill(&mut self.pool[tail..]);
    }

    /// The peaks that the pool shows; where its edition has none, those that
    /// are due.
    fn shown_peaks(&self) -> [u32; 9] {
        let shown = peaks(&self.pool);
        assert_eq!(shown.is_some(), self.edition == TWO);
        shown.unwrap_or(self.peaks.by_class())
    }

    fn live_offset(&mut self) -> Option<u32> {
        // The nearest block to a random place, found without counting.
        let place = self.rng.below((self.pages * PAGE) as u64) as u32;
        let blocks = self.live.blocks();
        let nearest = blocks.range(place..).next().or(blocks.iter().next());
        nearest.map(|(offset, _)| *offset)
    }

    fn offset(&mut self) -> u32 {
        let live = self.live_offset();
        match (self.rng.below(10), live) {
            (0..=6, Some(live)) => live,
            (7, _) => self.last_freed,
            _ => support::offset(&mut self.rng, self.pages, live),
        }
    }

    fn step(&mut self, habit: Habit) {
        let call = if self.rng.below(16) < habit.allocs {
            Call::Alloc(habit.size(&mut self.rng, self.pages))
        } else {
            Call::Free(self.offset())
        };
        self.scramble();
        self.serve(call);
    }

    /// Makes the call and checks everything that it may and may not do.
    fn serve(&mut self, call: Call) {
        let mut expected_pool = self.pool.clone();
        let ruling = self.live.ruling(call);
        let pool = &mut self.pool;
        let checked = self.rng.once_in(2);
        let refusal = match call {
            Call::Alloc(size) => {
                let serve = if checked { alloc } else { alloc_sound };
                let answer = serve(pool, size);
                let numbered = answer.map_err(|refusal| refusal.number());
                assert_eq!(numbered, self.plain.alloc(size), "{call:?}");
                let entered = self.live.record_alloc(size, answer);
                assert_eq!(entered, Ok(()), "{call:?} answered {answer:?}");
                answer.err()
            }
            Call::Free(offset) => {
                let block = self.live.blocks().get(&offset).copied();
                let serve = if checked { free } else { free_sound };
                let answer = serve(pool, offset);
                let numbered = answer.map_err(|refusal| refusal.number());
                assert_eq!(numbered, self.plain.free(offset), "{call:?}");
                let entered = self.live.record_free(offset, answer);
                assert_eq!(entered, Ok(()), "{call:?} answered {answer:?}");
                if answer.is_ok() {
                    self.last_freed = offset;
                    // The mark is cleared even in a page that is then released.
                    if let Some(Block::Chunk(class)) = block {
                        if MAP_BYTES[class.index()] > 0 {
                            let chunk = offset as usize % PAGE / class.chunk_size() as usize;
                            let map = self.page_at(offset as usize / PAGE);
                            expected_pool[map + chunk / 8] &= !(0x80 >> (chunk % 8));
                        }
                    }
                }
                answer.err()
            }
        };
        assert_eq!(refusal, ruling.err(), "{call:?}");
        match refusal {
            Some(refusal) => self.refused[refusal.number() as usize] += 1,
            None => self.granted[usize::from(matches!(call, Call::Free(_)))] += 1,
        }

        expected_pool[..self.page_at(0)].copy_from_slice(&self.plain.records());
        for (page, map) in self.plain.maps_in_pages() {
            let at = self.page_at(page);
            expected_pool[at..at + map.len()].copy_from_slice(&map);
        }
        assert!(self.pool == expected_pool, "{call:?}");

        assert!(validate(&self.pool), "{call:?}");
        self.view = self.live.expected();
        assert_eq!(shown(&self.pool).as_ref(), Some(&self.view), "{call:?}");
        let read = live_blocks(&self.pool);
        assert_eq!(read.as_ref(), Some(self.live.blocks()), "{call:?}");
        self.peaks.note(&self.live);
        assert_eq!(self.shown_peaks(), self.peaks.by_class(), "{call:?}");
    }

    fn page_at(&self, page: usize) -> usize {
        self.edition.page_at(self.pages, page)
    }

    /// Goes on in edition 2, where the history for peak starts anew.
    fn convert(&mut self) {
        let mut target = self.rng.bytes(TWO.length(self.pages) + 100);
        assert_eq!(convert(&self.pool, &mut target), Ok(self.pages as u32));
        self.pool = target;
        self.edition = TWO;
        self.plain.convert();
        assert!(self.pool[..self.page_at(0)] == self.plain.records());
        self.peaks = Peaks::new(self.live.used());
        assert_eq!(self.shown_peaks(), self.peaks.by_class());
        assert_eq!(shown(&self.pool).as_ref(), Some(&self.view));
    }

    /// Loses links and counts, and goes on in a mended copy.
    fn mend(&mut self) {
        let mut damaged = self.pool.clone();
        self.rng.fill(&mut damaged[4..8]);
        for class in 0..9 {
            let at = self.edition.class_record_at(class);
            self.rng.fill(&mut damaged[at..at + 8]);
        }
        for page in 0..self.pages {
            // All but the top bit of next.
            let at = self.edition.page_record_at(page) + 11;
            self.rng.fill(&mut damaged[at..at + 5]);
        }
        let mut target = self.rng.bytes(damaged.len());
        assert_eq!(mend(&damaged, &mut target), Ok(self.pages as u32));
        assert_eq!(check_mended(&damaged, &target), Ok(()));
        assert_eq!(check_mended(&damaged, &self.pool), Ok(()));
        let pages = self.page_at(0);
        assert!(target[pages..] == self.pool[pages..]);
        self.plain.mend();
        assert!(target[..pages] == self.plain.records());
        self.pool = target;
    }

    /// Gives everything back; what remains is one free run.
    fn empty(&mut self) {
        while let Some(offset) = self.live_offset() {
            self.serve(Call::Free(offset));
        }
        assert_eq!(self.view.free_runs, [(0, self.pages as u32)]);
    }
}

#[test]
fn every_page_count() {
    let mut granted = [0; 2];
    let mut refused = [0; 13];
    for pages in 1..=256 {
        let mut trial = Trial::new(pages as u64, EDITIONS[pages % 2], pages);
        for _ in 0..3 {
            let habit = Habit::any(&mut trial.rng);
            for _ in 0..100 / SLOWNESS {
                trial.step(habit);
            }
        }
        for (sum, count) in granted.iter_mut().zip(trial.granted) {
            *sum += count;
        }
        for (sum, count) in refused.iter_mut().zip(trial.refused) {
            *sum += count;
        }
    }
    assert!(granted.iter().all(|count| *count > 100), "{granted:?}");
    let seen = [4, 5, 6, 7, 10].map(|number: usize| refused[number]);
    assert!(seen.iter().all(|count| *count > 10), "{refused:?}");
    assert_eq!(refused[3], 0);
}

#[test]
fn small_pools_fill_and_empty() {
    for seed in 1_000..1_024 {
        let mut rng = Rng::new(seed);
        let pages = 1 + rng.below(12) as usize;
        let mut trial = Trial::new(seed, rng.pick(&EDITIONS), pages);
        for phase in 0..6 {
            let habit = Habit::any(&mut rng);
            for _ in 0..400 / SLOWNESS {
                trial.step(habit);
            }
            if phase == 2 && trial.edition == ONE {
                trial.convert();
            }
            if phase % 2 == 0 {
                trial.mend();
            }
        }
        trial.empty();
    }
}

#[test]
fn one_class_fills_the_pool() {
    for (class, edition) in (0..9).flat_map(|class| EDITIONS.map(|edition| (class, edition))) {
        let size = 8 << class;
        let mut trial = Trial::new(2_000 + class, edition, 3);
        loop {
            trial.serve(Call::Alloc(size));
            if trial.refused[4] > 0 {
                break;
            }
        }
        assert!(trial.view.free_runs.is_empty());
        trial.scramble();
        // Full pages return to their list in the order of the frees.
        for _ in 0..200 / SLOWNESS {
            trial.step(Habit {
                favourite: size,
                allocs: 8,
            });
        }
        trial.empty();
    }
}

#[test]
fn a_large_pool_in_pieces() {
    for edition in EDITIONS {
        let mut trial = Trial::new(3_000, edition, 256);
        for phase in 0..6 {
            let habit = Habit {
                favourite: [4_096, 64, 8_192, 2_048, 8, 4_096][phase],
                allocs: [15, 8, 6, 12, 12, 5][phase],
            };
            for _ in 0..1_000 / SLOWNESS {
                trial.step(habit);
            }
        }
        assert!(trial.refused[4] > 0, "the pool never filled");
        trial.empty();
    }
}
