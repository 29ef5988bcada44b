//! Pools after some calls, and calls that go on, for tests of what is made of
//! pools.

use danumrikal::{check, Offset, Pool};
use reference::{alloc_sound, format, free_sound, peaks, shown, Call, LiveSet, Peaks};
use support::{offset, Edition, Habit, Rng, PER_PAGE};

/// How many times the usual number of cases is tried.
pub fn times() -> u64 {
    match std::env::var("DANUMRIKAL_TIMES") {
        Ok(times) => times.parse().expect("DANUMRIKAL_TIMES is a number"),
        Err(_) => 1,
    }
}

/// A sound pool after some calls, its live blocks and its page count.
pub fn pool(rng: &mut Rng, edition: Edition, most: u64) -> (Vec<u8>, LiveSet, usize) {
    let pages = 1 + rng.below(most) as usize;
    let tail = rng.below(PER_PAGE as u64) as usize;
    // as many numbers drawn in each edition
    let mut pool = Rng::new(rng.word()).bytes(edition.length(pages) + tail);
    format(&mut pool, edition.number).expect("a length that holds pages");
    let mut live = LiveSet::new(pages as u32);
    let habit = Habit::any(rng);
    for _ in 0..rng.below(200) {
        match call(rng, habit, pages, &live) {
            Call::Alloc(size) => live.record_alloc(size, alloc_sound(&mut pool, size)),
            Call::Free(offset) => live.record_free(offset, free_sound(&mut pool, offset)),
        }
        .expect("an answer that the live blocks allow");
    }
    (pool, live, pages)
}

fn call(rng: &mut Rng, habit: Habit, pages: usize, live: &LiveSet) -> Call {
    let near = nearest(rng, pages, live);
    if rng.below(16) < habit.allocs {
        return Call::Alloc(habit.size(rng, pages));
    }
    match near.filter(|_| !rng.once_in(4)) {
        Some(live) => Call::Free(live),
        None => Call::Free(offset(rng, pages, near)),
    }
}

/// The live block nearest to some place.
fn nearest(rng: &mut Rng, pages: usize, live: &LiveSet) -> Option<u32> {
    let place = rng.below(pages as u64 * 4_096) as u32;
    let blocks = live.blocks();
    let nearest = blocks.range(place..).next().or(blocks.iter().next());
    nearest.map(|(offset, _)| *offset)
}

/// Calls go on in a sound pool that shows these live blocks: each is ruled as
/// they say, and the pool then shows what they make of it, in edition 2 also the
/// largest used of a history that starts with the peaks that stand there.
pub fn goes_on(rng: &mut Rng, bytes: &mut [u8], mut live: LiveSet, what: &str) {
    let view = live.expected();
    assert_eq!(shown(bytes).as_ref(), Some(&view), "{what}");
    let pages = view.classes.len();
    let mut history = peaks(bytes).map(Peaks::new);
    let habit = Habit::any(rng);
    for _ in 0..200 {
        let call = call(rng, habit, pages, &live);
        let what = format!("{what}, {call:?}");
        let ruling = live.ruling(call).err().map(|refusal| refusal.number());
        let mut pool = Pool::new(bytes);
        let (answer, entered) = match call {
            Call::Alloc(size) => {
                let answer = pool.alloc(size).map(|offset| offset.0);
                let granted = answer
                    .ok()
                    .map(|offset| live.record_alloc(size, Ok(offset)));
                (answer, granted)
            }
            Call::Free(offset) => {
                let answer = pool.free(Offset(offset));
                let granted = answer.ok().map(|bytes| live.record_free(offset, Ok(bytes)));
                (answer, granted)
            }
        };
        let refused = answer.err().map(|refusal| refusal.number());
        assert_eq!(refused, ruling, "{what}");
        assert_eq!(entered.unwrap_or(Ok(())), Ok(()), "{what}");
        assert_eq!(check(bytes), Ok(()), "{what}");
        assert_eq!(shown(bytes), Some(live.expected()), "{what}");
        history.iter_mut().for_each(|history| history.note(&live));
        assert_eq!(peaks(bytes), history.map(Peaks::by_class), "{what}");
    }
}
