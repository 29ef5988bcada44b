//! Checkers and menders with one fault each, to see that the cases find them out:
//! the second program's, done wrong.

use reference::layout::{ClassRecord, Header, PageNo, PageRecord, CLASS_PAGE};
use reference::{broken_rule, live_blocks, Class, Layout};
use support::Rng;

use crate::hands::{another_hand, lose, SPOILS, WRONGS};
use crate::{filled, second_check, second_mend};

/// Told the second program's number, it answers its own.
type Checker = fn(u8, &[u8], &[u8]) -> u8;
type Mender = fn(&[u8], &mut [u8]) -> Result<u32, u8>;

/// A damaged pool, and a copy of it that may be wrong.
fn case(seed: u64) -> (Vec<u8>, Vec<u8>) {
    let mut rng = Rng::new(4_000_000 + seed);
    let (mut damaged, ..) = filled(seed, &mut rng);
    if !rng.once_in(4) {
        lose(&mut rng, &mut damaged);
    }
    let mut copy = another_hand(&mut rng, &damaged);
    if rng.once_in(3) {
        rng.pick(&SPOILS).1(&mut rng, &mut damaged);
    }
    // The last of the list come first: they need a sound copy.
    let mut wrongs = [(); 2].map(|()| rng.below(WRONGS.len() as u64) as usize);
    wrongs.sort();
    for place in wrongs.into_iter().rev().take(rng.below(3) as usize) {
        WRONGS[place].2(&mut rng, &mut copy);
    }
    (damaged, copy)
}

fn layout(pool: &[u8]) -> Layout {
    Layout::of(pool).expect("a pool")
}

fn records(pool: &[u8]) -> Vec<PageRecord> {
    let pages = (0..layout(pool).pages).map(PageNo);
    pages
        .map(|page| PageRecord::read(pool, layout(pool), page))
        .collect()
}

fn links(pool: &[u8]) -> Vec<(PageNo, PageNo)> {
    let links = |record: PageRecord| (record.next, record.previous);
    records(pool).into_iter().map(links).collect()
}

/// Whether pages and tail hold the same bytes.
fn same_bytes(damaged: &[u8], copy: &[u8]) -> bool {
    let first = layout(damaged).page_at(PageNo(0));
    damaged[first..] == copy[first..]
}

/// The second program's number for a copy after a change to it, where that may
/// matter.
fn check_changed(
    number: u8,
    damaged: &[u8],
    copy: &[u8],
    change: impl Fn(&mut [u8], Layout),
) -> u8 {
    if [12, 13].contains(&number) {
        return number;
    }
    let mut copy = copy.to_vec();
    change(&mut copy, layout(damaged));
    second_check(damaged, &copy)
}

const CHECKERS: [(&str, Checker); 16] = [
    (
        "tries 13 before 12",
        |number, damaged, _| match second_check(damaged, damaged) {
            13 => 13,
            _ => number,
        },
    ),
    ("tries 3 before 13", |number, _, copy| match number {
        13 if broken_rule(copy) != 0 => 3,
        _ => number,
    }),
    ("tries 14 before 13", |number, damaged, copy| match number {
        13 if !same_bytes(damaged, copy) => 14,
        _ => number,
    }),
    ("tries 14 before 3", |number, damaged, copy| match number {
        3 if !same_bytes(damaged, copy) => 14,
        _ => number,
    }),
    ("does not compare lengths", |_, damaged, copy| {
        let len = damaged.len().min(copy.len());
        second_check(&damaged[..len], &copy[..len])
    }),
    ("does not compare edition bytes", |_, damaged, copy| {
        let mut copy = copy.to_vec();
        copy[0] = damaged[0];
        second_check(damaged, &copy)
    }),
    ("takes an unsound copy", |number, _, _| match number {
        3 => 0,
        _ => number,
    }),
    (
        "takes any damage for good parts",
        |number, _, copy| match (number, broken_rule(copy)) {
            (13, 0) => 14,
            (13, _) => 3,
            _ => number,
        },
    ),
    (
        "looks at the damaged pool's lists",
        |number, damaged, _| match (number, broken_rule(damaged)) {
            (0, 3 | 4) => 13,
            _ => number,
        },
    ),
    (
        "looks at its zero bits",
        |number, damaged, _| match number {
            0 if records(damaged).iter().any(|record| record.zeros != 0) => 13,
            _ => number,
        },
    ),
    ("compares links", |number, damaged, copy| match number {
        0 if links(damaged) != links(copy) => 14,
        _ => number,
    }),
    (
        "compares first pages",
        |number, damaged, copy| match number {
            0 if Header::read(damaged).first != Header::read(copy).first => 14,
            _ => number,
        },
    ),
    ("compares asks and failures", |number, damaged, copy| {
        let tally = |pool: &[u8], class| {
            let record = ClassRecord::read(pool, layout(damaged), class);
            (record.reqs, record.fails)
        };
        match number {
            0 if Class::all().any(|class| tally(damaged, class) != tally(copy, class)) => 14,
            _ => number,
        }
    }),
    ("does not compare the tail", |number, damaged, copy| {
        check_changed(number, damaged, copy, |copy, layout| {
            let tail = layout.page_at(PageNo(layout.pages));
            copy[tail..].copy_from_slice(&damaged[tail..]);
        })
    }),
    ("does not compare page bytes", |number, damaged, copy| {
        check_changed(number, damaged, copy, |copy, layout| {
            let pages = records(damaged).into_iter().zip(0..);
            for (_, page) in pages.filter(|(record, _)| record.kind != CLASS_PAGE) {
                let bytes = layout.page_at(PageNo(page))..layout.page_at(PageNo(page + 1));
                copy[bytes.clone()].copy_from_slice(&damaged[bytes]);
            }
        })
    }),
    ("counts blocks", |number, damaged, copy| match number {
        14 if same_bytes(damaged, copy) => {
            let mut whole = copy.to_vec();
            second_mend(damaged, &mut whole).expect("not beyond mending");
            let count = |pool| live_blocks(pool).map(|blocks| blocks.len());
            u8::from(count(&whole) != count(copy)) * 14
        }
        _ => number,
    }),
];

const MENDERS: [(&str, Mender); 3] = [
    ("tries 13 before 12", |damaged, target| {
        match second_check(damaged, damaged) {
            13 => Err(13),
            _ => second_mend(damaged, target),
        }
    }),
    ("mends into a longer slice", |damaged, target| {
        let len = target.len().min(damaged.len());
        second_mend(damaged, &mut target[..len])
    }),
    ("takes a class page without a block", |damaged, target| {
        let answer = second_mend(damaged, target);
        match broken_rule(damaged) {
            5 => answer.or(Ok(layout(damaged).pages)),
            _ => answer,
        }
    }),
];

#[test]
fn every_checker_is_caught() {
    for (name, checker) in CHECKERS {
        let caught = (0..2_000).any(|seed| {
            let (damaged, copy) = case(seed);
            let number = second_check(&damaged, &copy);
            checker(number, &damaged, &copy) != number
        });
        assert!(caught, "a checker that {name} was not found out");
    }
}

#[test]
fn every_mender_is_caught() {
    for (name, mender) in MENDERS {
        let caught = (0..2_000).any(|seed| {
            let (damaged, target) = case(seed);
            let [mut wrong, mut right] = [target.clone(), target];
            let answer = mender(&damaged, &mut wrong);
            answer != second_mend(&damaged, &mut right) || wrong != right
        });
        assert!(caught, "a mender that {name} was not found out");
    }
}
