//! The proved pool and the second program side by side: answers and every byte
//! after each call, on sound and on damaged pools of both editions. And the live
//! blocks, told by calls and answers alone while callers' bytes and the tail
//! become others before each call: they say what the pool shows, peaks too, and
//! how the next call is ruled. Damaged pools are mended at times, into another
//! slice in which the game goes on. A game that goes wrong is shrunk and printed
//! as a list of calls.
//!
//! The seeds are fixed. More games, with further seeds, here ten times as many:
//!
//! ```text
//! DANUMRIKAL_TIMES=10 cargo test --release --offline --manifest-path host/Cargo.toml \
//!     -p danumrikal --test differential -- --nocapture
//! ```

mod case;
mod damage;
mod doubles;
mod game;
mod player;
mod program;
mod shrink;

use player::{play_all, Plan, Seen};
use program::{PROVED, SECOND};
use support::{Habit, Rng, EDITIONS};

/// Every page count up to here is played; `tests/scale.rs` has larger pools.
const MANY_PAGES: usize = 256;

/// How many times the usual number of games is played.
fn times() -> u64 {
    match std::env::var("DANUMRIKAL_TIMES") {
        Ok(times) => times.parse().expect("DANUMRIKAL_TIMES is a number"),
        Err(_) => 1,
    }
}

/// Plays the proved pool against the second program, each game in both editions;
/// at least so many calls.
fn compare(calls: u64, plans: impl Iterator<Item = Plan>) -> Seen {
    let plans = plans.flat_map(|plan| EDITIONS.map(|edition| Plan { edition, ..plan }));
    match play_all([PROVED, SECOND], plans) {
        Ok(seen) => {
            println!("{seen:?}");
            assert!(seen.calls >= calls * times(), "only {} calls", seen.calls);
            seen
        }
        Err(found) => panic!("{found}"),
    }
}

#[test]
fn every_page_count() {
    let games = 0..MANY_PAGES as u64 * times();
    let seen = compare(
        60_000,
        games.map(|game| Plan::new(game, 1 + game as usize % MANY_PAGES, 100)),
    );
    assert_eq!(seen.refused[3], 0);
    assert!(seen.refused[4..8].iter().all(|count| *count > 100));
    assert!(seen.refused[10] > 100);
}

#[test]
fn small_pools_fill_break_into_pieces_and_empty() {
    let games = 0..300 * times();
    let seen = compare(
        240_000,
        games.map(|game| Plan::new(10_000_000 + game, 1 + game as usize % 12, 400)),
    );
    assert_eq!(seen.refused[3], 0);
    assert!(seen.refused[4..8].iter().all(|count| *count > 1_000));
    assert!(seen.refused[10] > 500);
    assert!(seen.allocated.iter().all(|count| *count > 1_000));
}

#[test]
fn pages_of_one_class_fill() {
    let games = 0..18 * times();
    let seen = compare(
        70_000,
        games.map(|game| Plan {
            habit: Some(Habit {
                favourite: 8 << (game % 9),
                allocs: 13,
            }),
            ..Plan::new(20_000_000 + game, 1 + game as usize / 9 % 2, 2_000)
        }),
    );
    assert!(seen.refused[4] > 1_000);
}

#[test]
fn large_pools_break_into_pieces() {
    let kinds = [(64, 4_096), (130, 64), (255, 8_192), (256, 2_048)];
    let games = (0..4 * times()).zip(kinds.into_iter().cycle());
    let seen = compare(
        20_000,
        games.map(|(game, (pages, favourite))| Plan {
            habit: Some(Habit {
                favourite,
                allocs: 9,
            }),
            ..Plan::new(30_000_000 + game, pages, 2_200)
        }),
    );
    assert!(seen.refused[4] > 100);
}

#[test]
fn damaged_pools_are_validated_and_mended_alike() {
    let games = 0..300 * times();
    let seen = compare(
        80_000,
        games.map(|game| {
            let few = 1 + game as usize % 9;
            let pages = if game % 50 == 0 { 256 } else { few };
            Plan {
                damaging: true,
                ..Plan::new(40_000_000 + game, pages, 200)
            }
        }),
    );
    assert!(seen.refused[3] > 5_000);
    assert!(seen.broken.iter().all(|count| *count > 20));
    assert!(seen.mended > 2_000 && seen.refused[13] > 2_000);
}

#[test]
fn any_bytes_are_answered() {
    let ends = EDITIONS.map(|edition| [edition.head(), edition.shortest(), edition.length(2)]);
    let ends = ends.into_iter().flatten().flat_map(|len| [len - 1, len]);
    let whole = EDITIONS.map(|edition| edition.length(12));
    for len in [0, 1, 7, 8].into_iter().chain(whole).chain(ends) {
        let random = Rng::new(len as u64).bytes(len);
        let filled = [0x00, 0x01, 0x02, 0xff, 0x55].map(|byte| vec![byte; len]);
        let begun = [1, 2].map(|edition| {
            let mut bytes = random.clone();
            bytes.iter_mut().take(1).for_each(|first| *first = edition);
            bytes
        });
        for mut bytes in filled.into_iter().chain(begun).chain([random]) {
            refused_alike(&mut bytes, &format!("length {len}"));
        }
    }
}

/// Both programs name the same broken rule, and no call changes the bytes.
fn refused_alike(bytes: &mut [u8], what: &str) {
    let rule = (PROVED.broken_rule)(bytes);
    assert_eq!(rule, reference::broken_rule(bytes), "{what}");
    assert_ne!(rule, 0, "{what}");
    let before = bytes.to_vec();
    assert_eq!((PROVED.alloc)(bytes, 1), Err(3), "{what}");
    assert_eq!((PROVED.alloc)(bytes, 0), Err(3), "{what}");
    assert_eq!((PROVED.free)(bytes, 0), Err(3), "{what}");
    assert!(bytes == before, "{what}");
}

/// The edition is told by the first byte, before anything else: with another
/// edition's number in it the rest means something else.
#[test]
fn every_first_byte() {
    for edition in EDITIONS {
        // With a tail of 0, and with one that holds as many pages in the other.
        for (pages, tail) in [(1, 0), (12, 0), (1, 72), (12, 72), (12, 4_111)] {
            let mut pool = vec![0; edition.length(pages) + tail];
            assert_eq!((SECOND.format)(&mut pool, edition.number), Ok(pages as u32));
            assert_eq!((SECOND.alloc)(&mut pool, 64), Ok(0));
            for first in (0..=255).filter(|first| *first != edition.number) {
                pool[0] = first;
                let what = format!("edition {}, {pages} pages, {first}", edition.number);
                refused_alike(&mut pool, &what);
            }
        }
    }
}
