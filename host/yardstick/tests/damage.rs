//! The packed machine and the second program name the same broken rule in
//! damaged pools.

mod calls;

use calls::Calls;
use reference::layout::{
    set_next, set_previous, set_word, word, ClassRecord, Header, PageNo, PageRecord, CLASS_PAGE,
};
use reference::{Call, Class, Edition, Layout};
use support::{Rng, ONE};
use yardstick::packed;

/// Puts back what was written.
struct Undo(Vec<(usize, u64)>);

impl Undo {
    fn write(&mut self, pool: &mut [u8], at: usize, value: u64) {
        self.0.push((at, word(pool, at)));
        set_word(pool, at, value);
    }

    fn undo(&mut self, pool: &mut [u8]) {
        while let Some((at, value)) = self.0.pop() {
            set_word(pool, at, value);
        }
    }
}

/// A word of header, class records or page records, or of a map in a page.
fn place(rng: &mut Rng, pages: usize) -> usize {
    let page = rng.below(pages as u64) as usize;
    match rng.below(8) {
        0 => 0,
        1 | 2 => ONE.class_record_at(rng.below(9) as usize),
        3 => ONE.page_at(pages, page) + 8 * rng.below(8) as usize,
        4 => ONE.page_record_at(page),
        _ => ONE.page_record_at(page) + 8,
    }
}

/// One word written at random.
fn wild_write(rng: &mut Rng, pool: &mut [u8], pages: usize, undo: &mut Undo) {
    let at = place(rng, pages);
    let old = word(pool, at);
    let number = rng.below(pages as u64 + 2);
    let field = rng.pick(&[0, 9, 16, 24, 25, 41, 48, 57, 61]);
    let new = match rng.below(7) {
        0 => old ^ 1 << rng.below(64),
        1 => old ^ rng.below(256) << (8 * rng.below(8)),
        2 => rng.pick(&[0, u64::MAX]),
        // A page number in one of the links, or a count.
        3 => old & !(0xFFFF << field) | number << field,
        4 => old | 0xFFFF << field,
        5 => old.wrapping_add(1 << field),
        _ => old.wrapping_sub(1 << field),
    };
    undo.write(pool, at, new);
}

/// Two page records exchanged.
fn swap_records(rng: &mut Rng, pool: &mut [u8], pages: usize, undo: &mut Undo) {
    let [left, right] = [(); 2].map(|()| ONE.page_record_at(rng.below(pages as u64) as usize));
    for half in [0, 8] {
        let (old, new) = (word(pool, left + half), word(pool, right + half));
        undo.write(pool, left + half, new);
        undo.write(pool, right + half, old);
    }
}

/// A change that rules of a lower number do not see: made by the second
/// program's own functions on a copy of header and records.
fn agreed_change(rng: &mut Rng, pool: &mut [u8], pages: usize, undo: &mut Undo) {
    let mut new = pool[..ONE.page_at(pages, 0)].to_vec();
    let layout = Layout {
        edition: Edition::One,
        pages: pages as u32,
    };
    let page = PageNo(rng.below(pages as u64) as u32);
    let record = PageRecord::read(&new, layout, page);
    let Some(class) = Class::new(record.class).filter(|_| record.kind == CLASS_PAGE) else {
        let header = Header::read(&new);
        set_next(&mut new, layout, page, header.first);
        if rng.once_in(2) && header.first != PageNo::NONE {
            set_previous(&mut new, layout, header.first, page);
        }
        return write_all(pool, &new, undo);
    };
    let mut counts = ClassRecord::read(&new, layout, class);
    match rng.below(4) {
        // The list begins elsewhere, perhaps at a full page.
        0 => counts.first = page,
        1 => {
            counts.first = page;
            set_previous(&mut new, layout, page, PageNo::NONE);
            set_next(&mut new, layout, page, PageNo::NONE);
        }
        // The page has no block left.
        2 => {
            counts.used = counts.used.wrapping_sub(record.bitmap.count_ones());
            let bitmap = 0;
            PageRecord { bitmap, ..record }.write(&mut new, layout, page);
        }
        // A ring.
        _ => {
            set_next(&mut new, layout, page, counts.first);
            if counts.first != PageNo::NONE {
                set_previous(&mut new, layout, counts.first, page);
            }
        }
    }
    counts.write(&mut new, layout, class);
    write_all(pool, &new, undo);
}

fn write_all(pool: &mut [u8], new: &[u8], undo: &mut Undo) {
    for at in (0..new.len()).step_by(8) {
        if word(pool, at) != word(new, at) {
            undo.write(pool, at, word(new, at));
        }
    }
}

/// Plays calls and damages the pool after each of them, `times` times. Answers
/// how often each rule was named.
fn play(seed: u64, pages: usize, turns: usize, times: usize) -> [usize; 7] {
    let mut calls = Calls::new(seed, pages);
    let mut pool = calls.rng.bytes(ONE.length(pages));
    packed::format(&mut pool).expect("a length that holds pages");
    let mut named = [0; 7];
    for _ in 0..turns {
        let call = calls.next();
        let answer = match call {
            Call::Alloc(size) => packed::alloc_sound(&mut pool, size),
            Call::Free(offset) => packed::free_sound(&mut pool, offset),
        };
        if let Ok(answer) = answer {
            calls.granted(call, answer);
        }
        let rng = &mut calls.rng;
        let mut undo = Undo(Vec::new());
        for _ in 0..times {
            for _ in 0..=rng.below(2) {
                match rng.below(6) {
                    0 => swap_records(rng, &mut pool, pages, &mut undo),
                    1 | 2 => agreed_change(rng, &mut pool, pages, &mut undo),
                    _ => wild_write(rng, &mut pool, pages, &mut undo),
                }
            }
            let rule = match pool[0] {
                2 => 1, // an edition that the yardstick does not know
                _ => reference::broken_rule(&pool),
            };
            assert_eq!(
                packed::broken_rule(&pool),
                rule,
                "seed {seed}, {pages} pages"
            );
            named[usize::from(rule)] += 1;
            undo.undo(&mut pool);
        }
    }
    named
}

#[test]
fn the_same_rule_is_named() {
    let mut named = [0; 7];
    for seed in 0..30 {
        for (pages, turns, times) in [
            (1, 200, 20),
            (2, 200, 20),
            (12, 600, 20),
            (64, 300, 10),
            (256, 300, 5),
        ] {
            let seen = play(seed, pages, turns, times);
            named
                .iter_mut()
                .zip(seen)
                .for_each(|(sum, seen)| *sum += seen);
        }
    }
    println!("damaged pools by the rule named: {named:?}");
    assert!(named.iter().all(|count| *count > 1_000), "{named:?}");
}
