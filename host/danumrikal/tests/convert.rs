//! The converter: the proved call against the second program, answer and every
//! byte of the target, for sound and damaged sources of both editions and targets
//! of all lengths; and what the target then is to every other call.
//!
//! The seeds are fixed. `DANUMRIKAL_TIMES=10` makes ten times as many.

mod common;

use common::{goes_on, pool, times};
use danumrikal::{check, convert, Refusal};
use reference::{broken_rule, format, live_blocks, peaks, shown};
use support::{Rng, EDITIONS, ONE, PER_PAGE, TWO};

/// What a conversion is made of.
#[derive(Clone)]
struct Case {
    source: Vec<u8>,
    target: Vec<u8>,
}

/// Converts, and answers the page count or the refusal's number.
type Program = fn(&[u8], &mut [u8]) -> Result<u32, u8>;

impl Case {
    /// What the program answers, and the target as it leaves it.
    fn served(&self, program: Program) -> (Result<u32, u8>, Vec<u8>) {
        let mut target = self.target.clone();
        (program(&self.source, &mut target), target)
    }
}

fn proved(source: &[u8], target: &mut [u8]) -> Result<u32, u8> {
    convert(source, target).map_err(|refusal| refusal.number())
}

fn second(source: &[u8], target: &mut [u8]) -> Result<u32, u8> {
    reference::convert(source, target).map_err(|refusal| refusal.number())
}

/// A source that is sound, damaged or of edition 2, and a target of a length that
/// often suits.
fn case(seed: u64) -> Case {
    let mut rng = Rng::new(seed);
    let edition = if rng.once_in(8) { TWO } else { ONE };
    let (mut source, _, pages) = pool(&mut rng, edition, 12);
    if rng.once_in(4) {
        let at = rng.below(edition.page_at(pages, 0) as u64) as usize;
        source[at] ^= 1 << rng.below(8);
    }
    let (least, most) = (TWO.length(pages), TWO.length(pages + 1));
    let len = match rng.below(8) {
        0 => rng.below(2 * most as u64) as usize,
        1 => rng.pick(&[least - 1, most, source.len()]),
        2 => rng.pick(&[least, most - 1]),
        _ => least + rng.below((most - least) as u64) as usize,
    };
    let target = rng.bytes(len);
    Case { source, target }
}

#[test]
fn conversions_are_those_of_the_second_program() {
    let mut answered = [0; 13];
    for seed in 0..4_000 * times() {
        let case = case(seed);
        let (answer, target) = case.served(proved);
        assert!(
            case.served(second) == (answer, target.clone()),
            "seed {seed}"
        );
        match answer {
            Ok(_) => {
                assert!(case.served(copy) == (answer, target.clone()), "seed {seed}");
                assert_eq!(check(&target), Ok(()), "seed {seed}");
                assert_eq!(shown(&target), shown(&case.source), "seed {seed}");
                assert_eq!(live_blocks(&target), live_blocks(&case.source));
                assert_eq!(peaks(&target), shown(&target).map(|view| view.used));
            }
            Err(_) => assert!(target == case.target, "seed {seed}: the target changed"),
        }
        answered[usize::from(answer.err().unwrap_or(0))] += 1;
    }
    println!("{answered:?}");
    let least = [(0, 1_500), (3, 500), (12, 200)];
    assert!(least
        .iter()
        .all(|(number, least)| answered[*number] > *least));
    assert_eq!(answered.iter().sum::<u64>(), 4_000 * times());
}

/// Source and target of the lengths around every limit.
#[test]
fn lengths_of_the_target() {
    for pages in [1, 2, 12, 256, 4_096] {
        let mut source = vec![0xa5; ONE.length(pages) + 7];
        format(&mut source, 1).expect("a length that holds pages");
        let (least, most) = (TWO.length(pages), TWO.length(pages + 1));
        for len in [least, most - 1] {
            let mut target = vec![0x5a; len];
            assert_eq!(proved(&source, &mut target), Ok(pages as u32));
            assert!(target[least..].iter().all(|byte| *byte == 0x5a), "the tail");
        }
        for len in [0, 1, 223, 224, 4_335, source.len(), least - 1, most] {
            let mut target = vec![0x5a; len];
            assert_eq!(
                proved(&source, &mut target),
                Err(12),
                "{pages} pages, {len}"
            );
            assert!(target == vec![0x5a; len], "{pages} pages, {len}");
        }
    }
}

/// 3 comes first, whatever the target.
#[test]
fn sources_that_are_refused() {
    let mut sound = vec![0; ONE.length(2)];
    format(&mut sound, 1).expect("two pages");
    let mut of_edition_2 = vec![0; TWO.length(2)];
    format(&mut of_edition_2, 2).expect("two pages");
    let damaged = |at: usize, byte: u8| {
        let mut source = sound.clone();
        source[at] = byte;
        source
    };
    let short = sound[..sound.len() - 1].to_vec();
    let editions = [0, 2, 3, 255].map(|edition| damaged(0, edition));
    let others = [damaged(5, 9), short, of_edition_2, vec![1], vec![]];
    for source in editions.into_iter().chain(others) {
        for len in [0, 1, TWO.length(2) - 1, TWO.length(2), TWO.length(3)] {
            let mut target = vec![0x5a; len];
            assert_eq!(convert(&source, &mut target), Err(Refusal::NotSound));
            assert!(target == vec![0x5a; len]);
        }
    }
}

/// Calls go on with the same blocks, and the history for peak starts at the
/// conversion: it is the largest used since, from calls and answers alone.
#[test]
fn the_history_starts_at_the_conversion() {
    for seed in 0..200 * times() {
        let mut rng = Rng::new(1_000_000 + seed);
        let (source, live, pages) = pool(&mut rng, ONE, 6);
        let mut bytes = rng.bytes(TWO.length(pages) + 9);
        assert_eq!(proved(&source, &mut bytes), Ok(pages as u32));
        assert_eq!(peaks(&bytes), Some(live.used()));
        goes_on(&mut rng, &mut bytes, live, &format!("seed {seed}"));
    }
}

/// Where the third word of a class lies in the target.
fn third(class: usize) -> usize {
    TWO.class_record_at(class) + 16
}

/// Copies whatever the source holds, where lengths suit.
fn copy(source: &[u8], target: &mut [u8]) -> Result<u32, u8> {
    let pages = (source.len() - ONE.head()) / PER_PAGE;
    if (target.len().saturating_sub(TWO.head())) / PER_PAGE != pages {
        return Err(12);
    }
    target[..8].copy_from_slice(&source[..8]);
    target[0] = 2;
    for class in 0..9 {
        let record = &source[ONE.class_record_at(class)..][..16];
        let peak = [&record[2..5], &[0; 5]].concat();
        let new = [record, &peak[..]].concat();
        target[TWO.class_record_at(class)..][..24].copy_from_slice(&new);
    }
    let rest = &source[ONE.head()..ONE.length(pages)];
    target[TWO.head()..TWO.length(pages)].copy_from_slice(rest);
    Ok(pages as u32)
}

/// Programs with one fault each: the second program's converter, done wrong.
const DOUBLES: [(&str, Program); 10] = [
    ("takes an unsound source", |source, target| {
        match (source[0], broken_rule(source)) {
            (1, 6) => copy(source, target),
            _ => second(source, target),
        }
    }),
    ("takes a source of edition 2", |source, target| {
        if source[0] == 2 && broken_rule(source) == 0 && source.len() <= target.len() {
            target[..source.len()].copy_from_slice(source);
            return Ok(u32::from(source[3]));
        }
        second(source, target)
    }),
    ("tries 12 before 3", |source, target| {
        let pages = |len: usize, head| len.saturating_sub(head) / PER_PAGE;
        if pages(source.len(), ONE.head()) != pages(target.len(), TWO.head()) {
            return Err(12);
        }
        second(source, target)
    }),
    ("takes a longer target", |source, target| {
        let pages = source.len().saturating_sub(ONE.head()) / PER_PAGE;
        let len = target.len().min(TWO.length(pages));
        second(source, &mut target[..len])
    }),
    ("writes the tail", |source, target| {
        let answer = second(source, target);
        if let Ok(pages) = answer {
            target[TWO.length(pages as usize)..].fill(0);
        }
        answer
    }),
    ("copies the tail", |source, target| {
        let answer = second(source, target);
        if let Ok(pages) = answer {
            let tail = &source[ONE.length(pages as usize)..];
            let rest = &mut target[TWO.length(pages as usize)..];
            for (new, old) in rest.iter_mut().zip(tail) {
                *new = *old;
            }
        }
        answer
    }),
    ("begins the peak at 0", |source, target| {
        let answer = second(source, target);
        if answer.is_ok() {
            (0..9).for_each(|class| target[third(class)..][..3].fill(0));
        }
        answer
    }),
    ("leaves the zero bits", |source, target| {
        let old = target.to_vec();
        let answer = second(source, target);
        if answer.is_ok() {
            for class in 0..9 {
                let zeros = third(class) + 3..third(class) + 8;
                target[zeros.clone()].copy_from_slice(&old[zeros]);
            }
        }
        answer
    }),
    ("forgets asks and failures", |source, target| {
        let answer = second(source, target);
        if answer.is_ok() {
            (0..9).for_each(|class| target[third(class) - 8..third(class)].fill(0));
        }
        answer
    }),
    ("changes the target and refuses", |source, target| {
        let answer = second(source, target);
        if answer == Err(3) {
            target.iter_mut().take(1).for_each(|first| *first = 2);
        }
        answer
    }),
];

#[test]
fn every_double_is_caught() {
    for (name, double) in DOUBLES {
        let caught = (0..2_000).any(|seed| {
            let case = case(seed);
            case.served(double) != case.served(second)
        });
        assert!(caught, "a program that {name} was not found out");
    }
}

/// The same calls lead to the same pool by either way, but for the peak's
/// history, in which a conversion begins anew.
#[test]
fn the_same_calls_in_both_editions() {
    for seed in 0..100 * times() {
        let [one, two] = EDITIONS.map(|edition| {
            let mut rng = Rng::new(2_000_000 + seed);
            pool(&mut rng, edition, 12)
        });
        assert_eq!((&one.1, one.2), (&two.1, two.2));
        let pages = two.2;
        let mut target = two.0.clone();
        assert_eq!(proved(&one.0, &mut target), Ok(pages as u32));
        assert_eq!(shown(&target), shown(&two.0));
        for class in 0..9 {
            let peak = third(class)..third(class) + 8;
            target[peak.clone()].copy_from_slice(&two.0[peak]);
        }
        let records = TWO.page_at(pages, 0);
        assert!(target[..records] == two.0[..records], "seed {seed}");
    }
}
