//! The record keeper: the proved calls against the second program, answers, every
//! byte of the pool and every word of the directory, and against a plain map, with
//! others' calls and writes in between; and directories and pools damaged in every
//! way.
//!
//! The seeds are fixed. `DANUMRIKAL_TIMES=10` makes ten times as many.

mod common;

use std::collections::{BTreeMap, BTreeSet, HashMap};

use common::{goes_on, pool, times};
use danumrikal::{Keeper, Offset, Pool, Refusal, MOST_PLACES};
use reference::keeper::{bytes_of, Entry};
use reference::{keeper as second, live_blocks};
use support::{offset, Edition, Rng, EDITIONS, PAGE};

/// A pool and the directory of its records.
#[derive(Clone, Debug, PartialEq, Eq)]
struct Store {
    pool: Vec<u8>,
    directory: Vec<u64>,
}

/// What a keeper is asked for.
#[derive(Clone, Debug)]
enum Request {
    Put(u16, Vec<u8>),
    Find(u16),
    Remove(u16),
}

/// What it answers: an offset, stored bytes, bytes released; or a number.
#[derive(Clone, Debug, PartialEq, Eq)]
enum Answer {
    At(u32),
    Record(Vec<u8>),
    Released(u32),
    No(u8),
}

fn proved(store: &mut Store, request: &Request) -> Answer {
    let mut keeper = Keeper::new(&mut store.pool, &mut store.directory);
    let answer = match request {
        Request::Put(key, record) => keeper.put(*key, record).map(|Offset(at)| Answer::At(at)),
        Request::Find(key) => keeper.find(*key).map(|bytes| Answer::Record(bytes.into())),
        Request::Remove(key) => keeper.remove(*key).map(Answer::Released),
    };
    answer.unwrap_or_else(|refusal| Answer::No(refusal.number()))
}

fn reference(store: &mut Store, request: &Request) -> Answer {
    let Store { pool, directory } = store;
    let answer = match request {
        Request::Put(key, record) => second::put(pool, directory, *key, record).map(Answer::At),
        Request::Find(key) => second::find(pool, directory, *key)
            .map(|entry| Answer::Record(pool[bytes_of(pool, entry)].into())),
        Request::Remove(key) => second::remove(pool, directory, *key).map(Answer::Released),
    };
    answer.unwrap_or_else(|refusal| Answer::No(refusal.number()))
}

/// The answer of the proved calls, once the second program has given the same and
/// left the same.
fn served(store: &mut Store, request: &Request, what: &str) -> Answer {
    let before = store.clone();
    let mut copy = store.clone();
    let answer = proved(store, request);
    let short = |store: &Store| store.directory.clone();
    assert_eq!(answer, reference(&mut copy, request), "{what}: {request:?}");
    assert_eq!(short(store), short(&copy), "{what}: {request:?}");
    assert!(store.pool == copy.pool, "{what}: {request:?}: the pool");
    let changes = !matches!(&answer, Answer::Record(_) | Answer::No(_));
    if !changes && answer != Answer::No(Refusal::NoRoom.number()) {
        assert!(*store == before, "{what}: {request:?} changed something");
    }
    answer
}

/// A record's bytes: of a class, some pages, or around a limit.
fn record(rng: &mut Rng) -> Vec<u8> {
    let length = match rng.below(40) {
        0 => rng.pick(&[0, 65_535, 65_536, 70_000]),
        1..=4 => rng.below(3 * PAGE as u64),
        _ => 1 + rng.below(2_048) >> rng.below(9),
    };
    rng.bytes(length as usize)
}

/// Keys that are often held, and such that differ from them in one byte alone.
fn key(rng: &mut Rng) -> u16 {
    let low = rng.below(12) as u16;
    low | rng.pick(&[0, 0, 0, 0x100, 0x8000])
}

/// A game: requests, and others' calls and writes in between.
struct Game {
    store: Store,
    edition: Edition,
    /// What a plain map holds, fed by requests and answers alone.
    map: HashMap<u16, Vec<u8>>,
    /// Others' live blocks, with their bytes.
    others: BTreeMap<u32, Vec<u8>>,
    seen: BTreeSet<u8>,
}

impl Game {
    fn new(rng: &mut Rng, edition: Edition) -> Game {
        let pages = 1 + rng.below(12) as usize;
        let tail = rng.below(100) as usize;
        let mut pool = rng.bytes(edition.length(pages) + tail);
        reference::format(&mut pool, edition.number).expect("a length that holds pages");
        let places = rng.pick(&[1, 2, 8, MOST_PLACES]);
        Game {
            store: Store {
                pool,
                directory: vec![0; places],
            },
            edition,
            map: HashMap::new(),
            others: BTreeMap::new(),
            seen: BTreeSet::new(),
        }
    }

    fn at(&self, offset: u32) -> usize {
        let pages = (self.store.pool.len() - self.edition.head()) / (PAGE + 16);
        self.edition.page_at(pages, 0) + offset as usize
    }

    /// Others take a block and write it, or give one of theirs back.
    fn others_call(&mut self, rng: &mut Rng) {
        let mut pool = Pool::new(&mut self.store.pool);
        if rng.once_in(2) {
            let size = 1 + (rng.below(2 * PAGE as u64) >> rng.below(10)) as u32;
            if let Ok(Offset(offset)) = pool.alloc(size) {
                let bytes = rng.bytes(size as usize);
                let at = self.at(offset);
                self.store.pool[at..at + bytes.len()].copy_from_slice(&bytes);
                self.others.insert(offset, bytes);
            }
        } else if let Some(offset) = any_key(rng, &self.others) {
            pool.free(Offset(offset)).expect("a live block");
            self.others.remove(&offset);
        }
    }

    /// The bytes behind a record, up to its block's end, may become any others.
    fn others_write(&mut self, rng: &mut Rng) {
        let blocks = live_blocks(&self.store.pool).expect("a sound pool");
        for word in self.store.directory.clone() {
            if let Some(entry) = Entry::read(word) {
                let end = bytes_of(&self.store.pool, entry).end;
                let spare = blocks[&entry.offset].bytes() as usize - usize::from(entry.length);
                rng.fill(&mut self.store.pool[end..end + spare]);
            }
        }
    }

    fn request(&mut self, rng: &mut Rng, what: &str) {
        let request = match rng.below(8) {
            0..=3 => Request::Put(key(rng), record(rng)),
            4..=5 => Request::Find(key(rng)),
            _ => Request::Remove(key(rng)),
        };
        let full = self.map.len() == self.store.directory.len();
        let answer = served(&mut self.store, &request, what);
        if let Answer::No(number) = answer {
            self.seen.insert(number);
        }
        match (&request, &answer) {
            (Request::Put(_, record), Answer::No(10)) => assert!(record.is_empty()),
            (Request::Put(_, record), Answer::No(12)) => assert!(record.len() > 65_535),
            (Request::Put(key, _), Answer::No(17)) => {
                assert!(full && !self.map.contains_key(key), "{what}")
            }
            (Request::Put(_, _), Answer::No(number)) => assert_eq!(*number, 4, "{what}"),
            (Request::Put(key, record), _) => {
                self.map.insert(*key, record.clone());
            }
            (Request::Find(key), answer) => {
                let due = self.map.get(key).cloned().map(Answer::Record);
                assert_eq!(*answer, due.unwrap_or(Answer::No(18)), "{what}");
            }
            (Request::Remove(key), answer) => {
                let held = self.map.remove(key).is_some();
                assert_eq!(matches!(answer, Answer::Released(_)), held, "{what}");
                assert!(held || *answer == Answer::No(18), "{what}");
            }
        }
    }

    fn check(&self, what: &str) {
        for (&offset, bytes) in &self.others {
            let at = self.at(offset);
            let now = &self.store.pool[at..at + bytes.len()];
            assert!(now == &bytes[..], "{what}: others' block at {offset}");
        }
    }
}

fn any_key<T>(rng: &mut Rng, map: &BTreeMap<u32, T>) -> Option<u32> {
    let at = rng.below(map.len().max(1) as u64) as usize;
    map.keys().nth(at).copied()
}

#[test]
fn games_are_answered_as_a_plain_map_does() {
    let mut seen = BTreeSet::new();
    for edition in EDITIONS {
        for seed in 0..250 * times() {
            let what = format!("edition {}, seed {seed}", edition.number);
            let mut rng = Rng::new(seed);
            let mut game = Game::new(&mut rng, edition);
            for _ in 0..120 {
                match rng.below(10) {
                    0..=2 => game.others_call(&mut rng),
                    3 => game.others_write(&mut rng),
                    _ => game.request(&mut rng, &what),
                }
                game.check(&what);
            }
            seen.extend(game.seen);
        }
    }
    assert!(seen.iter().eq(&[4, 10, 12, 17, 18]), "{seen:?}");
}

/// A store with some records and some of others' blocks.
fn store(rng: &mut Rng, edition: Edition) -> Store {
    let (pool, _, _) = pool(rng, edition, 12);
    let places = 1 + rng.below(MOST_PLACES as u64) as usize;
    let mut store = Store {
        pool,
        directory: vec![0; places],
    };
    for _ in 0..rng.below(2 * places as u64) {
        let request = match rng.below(4) {
            0 => Request::Remove(key(rng)),
            _ => Request::Put(key(rng), record(rng)),
        };
        proved(&mut store, &request);
    }
    store
}

/// One fault in a directory.
fn damage(rng: &mut Rng, store: &mut Store) {
    let places = store.directory.len();
    let any = rng.below(places as u64) as usize;
    let other = rng.below(places as u64) as usize;
    let word = store.directory[any];
    match rng.below(12) {
        // A bit.
        0..=2 => store.directory[any] ^= 1 << rng.below(64),
        // An empty place that is not 0.
        3 => store.directory[any] = rng.word() & !(0xffff << 32),
        // A key twice, an offset twice, a whole word twice.
        4 => {
            store.directory[other] = word & 0xffff << 48 | store.directory[other] & 0xffff_ffff_ffff
        }
        5 => store.directory[other] = word & 0xffff_ffff | store.directory[other] & !0xffff_ffff,
        6 => store.directory[other] = word,
        // A length past the block's room, or just up to it.
        7 => {
            let blocks = live_blocks(&store.pool).expect("a sound pool");
            if let Some(entry) = Entry::read(word) {
                let room = blocks[&entry.offset].bytes();
                let length = (room + rng.below(2)).min(65_535) as u16;
                store.directory[any] = Entry { length, ..entry }.word();
            }
        }
        // Any offset.
        8 => {
            let entry = Entry {
                key: rng.word() as u16,
                length: 1 + rng.below(8) as u16,
                offset: offset(rng, 12, None),
            };
            store.directory[any] = entry.word();
        }
        // Another's block.
        9 => {
            let blocks = live_blocks(&store.pool).expect("a sound pool");
            if let Some(offset) = any_key(rng, &blocks) {
                let (key, length) = (rng.word() as u16, 1);
                store.directory[any] = Entry {
                    key,
                    length,
                    offset,
                }
                .word();
            }
        }
        // No place at all, or too many.
        10 => store.directory.clear(),
        _ => store.directory.resize(MOST_PLACES + 1, 0),
    }
}

#[test]
fn damaged_directories_are_refused_alike() {
    let mut refused = 0;
    for edition in EDITIONS {
        for seed in 0..1_500 * times() {
            let what = format!("edition {}, seed {seed}", edition.number);
            let mut rng = Rng::new(seed);
            let mut store = store(&mut rng, edition);
            damage(&mut rng, &mut store);
            let sound = second::both_sound(&store.pool, &store.directory);
            for request in [
                Request::Find(key(&mut rng)),
                Request::Put(key(&mut rng), record(&mut rng)),
                Request::Remove(key(&mut rng)),
            ] {
                let mut store = store.clone();
                let answer = served(&mut store, &request, &what);
                assert_eq!(answer == Answer::No(3), !sound, "{what}");
            }
            refused += u32::from(!sound);
        }
    }
    assert!(refused > 1_000, "{refused}");
}

#[test]
fn damaged_pools_are_refused_alike() {
    for edition in EDITIONS {
        for seed in 0..400 * times() {
            let what = format!("edition {}, seed {seed}", edition.number);
            let mut rng = Rng::new(seed);
            let mut store = store(&mut rng, edition);
            let pages = (store.pool.len() - edition.head()) / (PAGE + 16);
            let at = rng.below(edition.page_at(pages, 0) as u64) as usize;
            store.pool[at] ^= 1 << rng.below(8);
            for request in [
                Request::Find(key(&mut rng)),
                Request::Put(key(&mut rng), record(&mut rng)),
                Request::Remove(key(&mut rng)),
            ] {
                served(&mut store, &request, &what);
            }
        }
    }
}

/// Refusals in their order: of each two the earlier is answered where both hold.
#[test]
fn refusals_in_order() {
    for edition in EDITIONS {
        let mut store = Store {
            pool: vec![0; edition.length(1)],
            directory: vec![0],
        };
        let put = |store: &mut Store, key, length: usize| {
            served(store, &Request::Put(key, vec![7; length]), "in order")
        };
        // No pool, an empty record; a pool, no place, an empty record.
        assert_eq!(put(&mut store, 1, 0), Answer::No(3));
        reference::format(&mut store.pool, edition.number).expect("one page");
        store.directory.clear();
        assert_eq!(put(&mut store, 1, 0), Answer::No(3));
        assert_eq!(
            served(&mut store, &Request::Find(1), "no place"),
            Answer::No(3)
        );
        store.directory = vec![0];
        assert_eq!(put(&mut store, 1, 8), Answer::At(64));
        // The directory is full, and the key new.
        assert_eq!(put(&mut store, 2, 0), Answer::No(10));
        assert_eq!(put(&mut store, 2, 65_536), Answer::No(12));
        assert_eq!(put(&mut store, 2, 65_535), Answer::No(17));
        // The key is held: 17 is not tried, and the old record stays.
        assert_eq!(put(&mut store, 1, 65_536), Answer::No(12));
        assert_eq!(put(&mut store, 1, 65_535), Answer::No(4));
        assert_eq!(put(&mut store, 0x101, 1), Answer::No(17)); // another high byte
        let held = Answer::Record(vec![7; 8]);
        assert_eq!(served(&mut store, &Request::Find(1), "held"), held);
        assert_eq!(
            served(&mut store, &Request::Find(0x101), "not held"),
            Answer::No(18)
        );
        let released = Answer::Released(8);
        assert_eq!(served(&mut store, &Request::Remove(1), "held"), released);
        assert_eq!(
            served(&mut store, &Request::Remove(1), "gone"),
            Answer::No(18)
        );
        assert_eq!(store.directory, [0]);
    }
}

/// A put that is refused for room counts as the alloc does, and only that.
#[test]
fn a_put_without_room_leaves_what_an_alloc_leaves() {
    for edition in EDITIONS {
        let mut store = Store {
            pool: vec![0; edition.length(1)],
            directory: vec![0; 2],
        };
        reference::format(&mut store.pool, edition.number).expect("one page");
        let put = |store: &mut Store, key, length| {
            served(store, &Request::Put(key, vec![7; length]), "no room")
        };
        assert_eq!(put(&mut store, 1, 8), Answer::At(64));
        let (mut pool, directory) = (store.pool.clone(), store.directory.clone());
        for key in [1, 2] {
            assert_eq!(put(&mut store, key, 9), Answer::No(4));
            assert_eq!(
                reference::alloc(&mut pool, 9).map_err(|r| r.number()),
                Err(4)
            );
            assert!(store.pool == pool && store.directory == directory);
        }
    }
}

/// A record replaced: the new block is taken while the old one is still live.
#[test]
fn the_old_block_is_given_back_last() {
    for edition in EDITIONS {
        let mut store = Store {
            pool: vec![0; edition.length(2)],
            directory: vec![0; 3],
        };
        reference::format(&mut store.pool, edition.number).expect("two pages");
        let put = |store: &mut Store, length| {
            served(store, &Request::Put(7, vec![7; length]), "replaced")
        };
        assert_eq!(put(&mut store, 4_096), Answer::At(0));
        assert_eq!(put(&mut store, 4_095), Answer::At(4_096));
        assert_eq!(put(&mut store, 4_094), Answer::At(0));
        // Both pages would do, one of them is the old record's.
        assert_eq!(put(&mut store, 8_192), Answer::No(4));
        let live = live_blocks(&store.pool).expect("a sound pool");
        assert!(live.keys().eq(&[0]));
        let record = Answer::Record(vec![7; 4_094]);
        assert_eq!(served(&mut store, &Request::Find(7), "whole"), record);
    }
}

/// What the live blocks say, a put is an alloc and then a free of the old block: a
/// pool with records goes on as they allow.
#[test]
fn a_pool_with_records_goes_on() {
    for edition in EDITIONS {
        for seed in 0..100 * times() {
            let what = format!("edition {}, seed {seed}", edition.number);
            let mut rng = Rng::new(seed);
            let (pool, mut live, _) = pool(&mut rng, edition, 12);
            let mut store = Store {
                pool,
                directory: vec![0; 8],
            };
            for _ in 0..40 {
                let (key, record) = (key(&mut rng), record(&mut rng));
                let size = record.len() as u32;
                let mut entries = store.directory.iter().filter_map(|&word| Entry::read(word));
                let old = entries.find(|entry| entry.key == key);
                let noted = match proved(&mut store, &Request::Put(key, record)) {
                    Answer::At(offset) => live.record_alloc(size, Ok(offset)).and_then(|()| {
                        old.map_or(Ok(()), |old| {
                            let bytes = live.blocks()[&old.offset].bytes() as u32;
                            live.record_free(old.offset, Ok(bytes))
                        })
                    }),
                    Answer::No(4) => live.record_alloc(size, Err(reference::Refusal::NoRoom)),
                    _ => Ok(()),
                };
                noted.expect("an answer that the live blocks allow");
            }
            goes_on(&mut rng, &mut store.pool, live, &what);
        }
    }
}

/// Serves a request, and leaves the store.
type Program = fn(&mut Store, &Request) -> Answer;

/// The place of a key's record.
fn place(store: &Store, key: u16) -> Option<usize> {
    let mut entries = store.directory.iter().map(|&word| Entry::read(word));
    entries.position(|entry| entry.is_some_and(|entry| entry.key == key))
}

/// Programs with one fault each: the second program's calls, done wrong.
const DOUBLES: [(&str, Program); 9] = [
    ("gives the old block back first", |store, request| {
        if let Request::Put(key, record) = request {
            let room = reference(&mut store.clone(), request);
            if let (Some(place), Answer::At(_)) = (place(store, *key), room) {
                second::remove(&mut store.pool, &mut store.directory, *key).expect("held");
                let mut one = vec![0];
                let answer = second::put(&mut store.pool, &mut one, *key, record);
                store.directory[place] = one[0];
                return answer.map_or_else(|refusal| Answer::No(refusal.number()), Answer::At);
            }
        }
        reference(store, request)
    }),
    (
        "drops the old record where there is no room",
        |store, request| {
            let answer = reference(store, request);
            if let (Request::Put(key, _), Answer::No(4)) = (request, &answer) {
                reference(store, &Request::Remove(*key));
            }
            answer
        },
    ),
    (
        "counts no put that is refused for room",
        |store, request| {
            let before = store.pool.clone();
            let answer = reference(store, request);
            if answer == Answer::No(4) {
                store.pool = before;
            }
            answer
        },
    ),
    (
        "tries 17 before 10 and 12",
        |store, request| match request {
            Request::Put(key, record) if record.is_empty() || record.len() > 65_535 => {
                match reference(store, &Request::Put(*key, vec![0])) {
                    Answer::No(17) => Answer::No(17),
                    _ => reference(store, request),
                }
            }
            _ => reference(store, request),
        },
    ),
    ("takes the last empty place", |store, request| {
        let before = store.directory.clone();
        let answer = reference(store, request);
        if let (Request::Put(key, _), Answer::At(_)) = (request, &answer) {
            let taken = place(store, *key).expect("put");
            let last = before.iter().rposition(|&word| word == 0);
            if let (0, Some(last)) = (before[taken], last) {
                store.directory.swap(taken, last);
            }
        }
        answer
    }),
    ("reads the low byte of a key", |store, request| {
        let of = |key: &u16| {
            let mut entries = store.directory.iter().filter_map(|&word| Entry::read(word));
            entries.find(|entry| entry.key & 0xff == key & 0xff)
        };
        match request {
            Request::Find(key) => {
                let key = of(key).map_or(*key, |entry| entry.key);
                reference(store, &Request::Find(key))
            }
            _ => reference(store, request),
        }
    }),
    ("finds a removed key", |store, request| {
        let before = store.directory.clone();
        let answer = reference(store, request);
        if let (Request::Remove(_), Answer::Released(_)) = (request, &answer) {
            store.directory = before;
        }
        answer
    }),
    ("answers the whole block", |store, request| {
        let answer = reference(store, request);
        match (request, &answer) {
            (Request::Find(key), Answer::Record(_)) => {
                let entry = Entry::read(store.directory[place(store, *key).expect("held")]);
                let offset = entry.expect("held").offset;
                let blocks = live_blocks(&store.pool).expect("a sound pool");
                let length = blocks[&offset].bytes().min(65_535) as u16;
                let whole = Entry {
                    length,
                    ..entry.expect("held")
                };
                Answer::Record(store.pool[bytes_of(&store.pool, whole)].into())
            }
            _ => answer,
        }
    }),
    ("serves a directory with a block twice", |store, request| {
        let answer = reference(store, request);
        let mut offsets = BTreeSet::new();
        let twice =
            |word: &u64| Entry::read(*word).is_some_and(|entry| !offsets.insert(entry.offset));
        match (request, store.directory.iter().position(twice)) {
            (Request::Find(key), Some(second)) if answer == Answer::No(3) => {
                let mut other = store.clone();
                other.directory[second] = 0;
                reference(&mut other, &Request::Find(*key))
            }
            _ => answer,
        }
    }),
];

#[test]
fn every_double_is_caught() {
    for (name, double) in DOUBLES {
        let caught = (0..2_000).any(|seed| {
            let mut rng = Rng::new(seed);
            let mut store = store(&mut rng, EDITIONS[seed as usize % 2]);
            if rng.once_in(4) {
                damage(&mut rng, &mut store);
            }
            let request = match rng.below(3) {
                0 => Request::Find(key(&mut rng)),
                1 => Request::Put(key(&mut rng), record(&mut rng)),
                _ => Request::Remove(key(&mut rng)),
            };
            let mut copy = store.clone();
            let answer = double(&mut copy, &request);
            answer != reference(&mut store, &request) || copy != store
        });
        assert!(caught, "a program that {name} was not found out");
    }
}
