//! Batches: the proved call against the second program, against single calls,
//! and against itself cut in two, in both editions. Outcome, every byte of the
//! pool and every place for an answer are compared, whatever the pool and the
//! words hold. On sound pools of edition 2 the peaks are the largest used after
//! any request.
//!
//! The seeds are fixed. `DANUMRIKAL_TIMES=10` plays ten times as many batches.

use danumrikal::{Answer, Offset, Pool, Refusal, Request};
use reference::batch::{answer_word, read_request};
use reference::{
    alloc_sound, batch, broken_rule, free_sound, live_blocks, peaks, Call, LiveSet, Peaks,
};
use support::{offset, Edition, Habit, Rng, EDITIONS, ONE, PER_PAGE, TWO};

/// A pool, request words, and what stands in the places for answers.
#[derive(Clone, Debug, PartialEq, Eq)]
struct Case {
    pool: Vec<u8>,
    requests: Vec<u64>,
    answers: Vec<u64>,
}

/// Serves a batch and answers the word of its outcome.
type Program = fn(&mut [u8], &[u64], &mut [u64]) -> u64;

impl Case {
    /// What the program answers, and pool and answers as it leaves them.
    fn served(&self, program: Program) -> (u64, Case) {
        let mut case = self.clone();
        let outcome = program(&mut case.pool, &case.requests, &mut case.answers);
        (outcome, case)
    }

    /// The same requests as two batches.
    fn served_in_two(&self, program: Program, cut: usize) -> (u64, Case) {
        let mut case = self.clone();
        let (first, rest) = case.requests.split_at(cut);
        let (before, after) = case.answers.split_at_mut(cut);
        program(&mut case.pool, first, before);
        let outcome = program(&mut case.pool, rest, after);
        (outcome, case)
    }

    /// The same requests as single calls of the proved pool, as the rules say:
    /// 11, then 3, then each word in turn.
    fn served_singly(&self) -> (u64, Case) {
        let mut case = self.clone();
        if case.answers.len() < case.requests.len() {
            return (11 << 56, case);
        }
        if Pool::new(&mut case.pool).check().is_err() {
            return (3 << 56, case);
        }
        for (&request, answer) in case.requests.iter().zip(&mut case.answers) {
            *answer = match read_request(request) {
                Some(call) => single(&mut case.pool, call),
                None => 8 << 56,
            };
        }
        (0, case)
    }
}

/// A single call of the proved pool.
fn single(pool: &mut [u8], call: Call) -> u64 {
    let mut pool = Pool::new(pool);
    word(match call {
        Call::Alloc(size) => pool.alloc(size).map(|offset| offset.0),
        Call::Free(offset) => pool.free(Offset(offset)),
    })
}

fn word(answer: Result<u32, Refusal>) -> u64 {
    match answer {
        Ok(value) => value.into(),
        Err(refusal) => u64::from(refusal.number()) << 56,
    }
}

fn proved(pool: &mut [u8], requests: &[u64], answers: &mut [u64]) -> u64 {
    let requests: Vec<_> = requests.iter().copied().map(Request::from_word).collect();
    let mut given: Vec<_> = answers.iter().copied().map(Answer::from_word).collect();
    let outcome = Pool::new(pool).batch(&requests, &mut given);
    for (place, answer) in answers.iter_mut().zip(given) {
        *place = answer.word();
    }
    word(outcome.map(|()| 0))
}

fn second(pool: &mut [u8], requests: &[u64], answers: &mut [u64]) -> u64 {
    answer_word(batch(pool, requests, answers).map(|()| 0))
}

/// Batches on one pool after the other, each of them as the last left it.
struct Cases {
    rng: Rng,
    pool: Vec<u8>,
    edition: Edition,
    pages: usize,
    habit: Habit,
    live: Vec<u32>,
}

impl Cases {
    fn new(seed: u64, edition: Edition, pages: usize) -> Cases {
        let mut rng = Rng::new(seed);
        let tail = rng.below(PER_PAGE as u64) as usize;
        let mut pool = rng.bytes(edition.length(pages) + tail);
        reference::format(&mut pool, edition.number).expect("a length that holds pages");
        let habit = Habit::any(&mut rng);
        let live = Vec::new();
        Cases {
            rng,
            pool,
            edition,
            pages,
            habit,
            live,
        }
    }

    fn next(&mut self) -> Case {
        let mut pool = self.pool.clone();
        let count = self.rng.below(60) as usize;
        let requests: Vec<u64> = (0..count).map(|_| self.request(&mut pool)).collect();
        let places = match self.rng.below(6) {
            0 => self.rng.below(count as u64 + 1) as usize,
            1 => count + self.rng.below(8) as usize,
            _ => count,
        };
        let mut case = Case {
            pool: self.pool.clone(),
            requests,
            answers: (0..places).map(|_| self.rng.word()).collect(),
        };
        if self.rng.once_in(5) {
            let records = self.edition.page_at(self.pages, 0);
            let at = self.rng.below(records as u64) as usize;
            case.pool[at] ^= 1 << self.rng.below(8);
        }
        self.pool = pool;
        case
    }

    /// A request, played on the pool so that later ones can free its block.
    fn request(&mut self, pool: &mut [u8]) -> u64 {
        let rng = &mut self.rng;
        let stray = match rng.below(12) {
            0 => 1 << (32 + rng.below(31)),
            1 => rng.word(),
            _ => 0,
        };
        let call = if rng.below(16) < self.habit.allocs {
            u64::from(self.habit.size(rng, self.pages))
        } else if !self.live.is_empty() && !rng.once_in(4) {
            let at = rng.below(self.live.len() as u64) as usize;
            1 << 63 | u64::from(self.live.swap_remove(at))
        } else {
            let near = self.live.last().copied();
            1 << 63 | u64::from(offset(rng, self.pages, near))
        };
        let request = call | stray;
        match read_request(request) {
            Some(Call::Alloc(size)) => self.live.extend(alloc_sound(pool, size)),
            Some(Call::Free(offset)) => {
                let _ = free_sound(pool, offset);
            }
            None => {}
        }
        request
    }
}

/// Whether the program serves the case as the second program does.
fn differs(program: Program, case: &Case) -> bool {
    case.served(program) != case.served(second)
}

/// How often each outcome came, and each kind of answer.
#[derive(Debug, Default)]
struct Seen {
    done: usize,
    too_short: usize,
    unsound: usize,
    requests: usize,
    stray: usize,
    nothing: usize,
}

/// The peaks after a batch on a sound pool, from its live blocks and what was
/// answered to the requests.
fn peaks_after(pages: usize, case: &Case, answers: &[u64]) -> Option<[u32; 9]> {
    let mut live = LiveSet::new(pages as u32);
    for (offset, block) in live_blocks(&case.pool)? {
        let entered = live.record_alloc(block.bytes() as u32, Ok(offset));
        entered.expect("blocks of a sound pool are apart");
    }
    let mut history = Peaks::new(peaks(&case.pool)?);
    for (&request, &answer) in case.requests.iter().zip(answers) {
        let granted = || Ok(answer as u32);
        let entered = match read_request(request) {
            _ if answer >> 56 != 0 => Ok(()),
            Some(Call::Alloc(size)) => live.record_alloc(size, granted()),
            Some(Call::Free(offset)) => live.record_free(offset, granted()),
            None => Ok(()),
        };
        entered.expect("an answer that the live blocks allow");
        history.note(&live);
    }
    Some(history.by_class())
}

fn play(seed: u64, edition: Edition, pages: usize, batches: usize, seen: &mut Seen) {
    let mut cases = Cases::new(seed, edition, pages);
    for number in 0..batches {
        let case = cases.next();
        let place = format!(
            "seed {seed}, edition {}, {pages} pages, batch {number}",
            edition.number
        );
        let (outcome, end) = case.served(proved);
        let print = || -> String {
            let words = case.requests.iter().copied().map(Request::from_word);
            words.map(|request| format!("\n    {request}")).collect()
        };
        assert!(!differs(proved, &case), "{place}: second{}", print());
        let alike = case.served_singly() == (outcome, end.clone());
        assert!(alike, "{place}: single calls{}", print());
        match outcome >> 56 {
            0 => {
                let cut = number % (case.requests.len() + 1);
                let alike = case.served_in_two(proved, cut) == (outcome, end.clone());
                assert!(alike, "{place}: cut in two at {cut}{}", print());
                assert_eq!(broken_rule(&end.pool), 0, "{place}{}", print());
                let due = peaks_after(pages, &case, &end.answers);
                assert_eq!(due.is_some(), edition == TWO);
                assert_eq!(peaks(&end.pool), due, "{place}: peaks{}", print());
                seen.done += 1;
                seen.requests += case.requests.len();
                let answered = &end.answers[..case.requests.len()];
                let refused =
                    |number: u64| answered.iter().filter(move |&&word| word == number << 56);
                seen.stray += refused(8).count();
                seen.nothing += refused(10).count();
            }
            number => {
                assert!(end == case, "{place}: refused and changed{}", print());
                match number {
                    3 => seen.unsound += 1,
                    11 => seen.too_short += 1,
                    _ => panic!("{place}: refused with {number}"),
                }
            }
        }
    }
}

fn times() -> u64 {
    match std::env::var("DANUMRIKAL_TIMES") {
        Ok(times) => times.parse().expect("DANUMRIKAL_TIMES is a number"),
        Err(_) => 1,
    }
}

#[test]
fn batches_in_small_pools() {
    let mut seen = Seen::default();
    for seed in 0..60 * times() {
        for pages in [1, 2, 3, 12] {
            for edition in EDITIONS {
                play(seed, edition, pages, 25, &mut seen);
            }
        }
    }
    println!("{seen:?}");
    assert!(seen.done > 6_000 && seen.requests > 180_000 && seen.stray > 18_000);
    assert!(seen.too_short > 1_000 && seen.unsound > 1_000 && seen.nothing > 600);
}

#[test]
fn batches_in_large_pools() {
    let mut seen = Seen::default();
    for seed in 0..4 * times() {
        for pages in [64, 256] {
            for edition in EDITIONS {
                play(seed, edition, pages, 25, &mut seen);
            }
        }
    }
    println!("{seen:?}");
    assert!(seen.done > 200 && seen.too_short > 20 && seen.unsound > 20);
}

#[test]
fn an_empty_batch_is_refused_on_an_unsound_pool() {
    for edition in EDITIONS {
        let mut pool = vec![0; edition.length(1)];
        let refused = Pool::new(&mut pool).batch(&[], &mut []);
        assert_eq!(refused, Err(Refusal::NotSound));
        reference::format(&mut pool, edition.number).expect("a length that holds a page");
        assert_eq!(Pool::new(&mut pool).batch(&[], &mut []), Ok(()));
        pool[0] = 3;
        let refused = Pool::new(&mut pool).batch(&[], &mut []);
        assert_eq!(refused, Err(Refusal::NotSound));
    }
}

#[test]
fn nothing_is_refused_and_the_next_is_served() {
    let mut pool = vec![0; ONE.length(1)];
    let mut pool = Pool::new(&mut pool);
    pool.format(danumrikal::Edition::One)
        .expect("a length that holds a page");
    let requests = [8, 0, 8, 0].map(Request::alloc);
    let mut answers = [Answer::default(); 4];
    assert_eq!(pool.batch(&requests, &mut answers), Ok(()));
    let nothing = Err(Refusal::NothingAsked);
    let given = answers.map(Answer::value);
    assert_eq!(given, [Ok(64), nothing, Ok(72), nothing]);
}

#[test]
fn too_few_places_come_before_an_unsound_pool() {
    let refused = Pool::new(&mut []).batch(&[Request::alloc(1)], &mut []);
    assert_eq!(refused, Err(Refusal::AnswersTooShort));
}

/// Programs with one fault each: the second program's batch, done wrong.
const DOUBLES: [(&str, Program); 10] = [
    ("tries 3 before 11", |pool, requests, answers| {
        if broken_rule(pool) != 0 {
            return 3 << 56;
        }
        second(pool, requests, answers)
    }),
    ("ends at a stray word", |pool, requests, answers| {
        let stray = requests
            .iter()
            .position(|&word| read_request(word).is_none());
        let served = stray.map_or(requests.len(), |at| at + 1);
        if answers.len() < requests.len() {
            return 11 << 56;
        }
        second(pool, &requests[..served], answers)
    }),
    ("ends at a take of nothing", |pool, requests, answers| {
        let nothing = requests.iter().position(|&word| word == 0);
        let served = nothing.map_or(requests.len(), |at| at + 1);
        if answers.len() < requests.len() {
            return 11 << 56;
        }
        second(pool, &requests[..served], answers)
    }),
    ("serves a stray word", |pool, requests, answers| {
        let bits = 1 << 63 | u64::from(u32::MAX);
        let tidy: Vec<_> = requests.iter().map(|word| word & bits).collect();
        second(pool, &tidy, answers)
    }),
    ("clears answers beyond", |pool, requests, answers| {
        let outcome = second(pool, requests, answers);
        if outcome == 0 {
            answers[requests.len()..].fill(0);
        }
        outcome
    }),
    ("never validates", |pool, requests, answers| {
        if answers.len() < requests.len() {
            return 11 << 56;
        }
        let serve = |pool: &mut [u8], word| match read_request(word) {
            Some(Call::Alloc(size)) => alloc_sound(pool, size),
            Some(Call::Free(offset)) => free_sound(pool, offset),
            None => Err(reference::Refusal::Unreadable),
        };
        for (&word, answer) in requests.iter().zip(answers) {
            *answer = answer_word(serve(pool, word));
        }
        0
    }),
    ("answers 7 to a stray word", |pool, requests, answers| {
        let outcome = second(pool, requests, answers);
        let stray = requests
            .iter()
            .zip(answers)
            .filter(|(_, answer)| **answer == 8 << 56);
        if outcome == 0 {
            stray.for_each(|(_, answer)| *answer = 7 << 56);
        }
        outcome
    }),
    ("counts peaks once at the end", |pool, requests, answers| {
        let third = |class: usize| TWO.class_record_at(class) + 16;
        let old = pool.to_vec();
        let outcome = second(pool, requests, answers);
        if outcome == 0 && pool[0] == 2 {
            for class in 0..9 {
                let used = third(class) - 14..third(class) - 11;
                let peak = third(class)..third(class) + 3;
                let most = pool[used].to_vec().max(old[peak.clone()].to_vec());
                pool[peak].copy_from_slice(&most);
            }
        }
        outcome
    }),
    ("serves edition 1 alone", |pool, requests, answers| {
        if answers.len() >= requests.len() && pool.first() == Some(&2) {
            return 3 << 56;
        }
        second(pool, requests, answers)
    }),
    (
        "serves what it has places for",
        |pool, requests, answers| {
            let served = requests.len().min(answers.len());
            second(pool, &requests[..served], answers)
        },
    ),
];

#[test]
fn every_double_is_caught() {
    for (name, double) in DOUBLES {
        let mut cases = (0..100).flat_map(|seed| {
            let mut cases = Cases::new(seed, EDITIONS[seed as usize % 2], 3);
            (0..5).map(move |_| cases.next())
        });
        let caught = cases.any(|case| differs(double, &case));
        assert!(caught, "a program that {name} was not found out");
    }
}
