//! Damage to header, records and maps.

use reference::layout::{
    set_next, set_previous, word, ClassRecord, Header, PageNo, PageRecord, CLASS_PAGE, FREE_FIRST,
    TAKEN_FIRST, TAKEN_INSIDE,
};
use reference::{Class, Layout, CLASSES};
use support::Rng;

use crate::case::Turn;
use crate::game::Game;

/// One word changed at random, or several in agreement with each other.
pub fn damage(rng: &mut Rng, game: &Game) -> Vec<Turn> {
    let old = game.pool();
    if !rng.once_in(3) {
        return vec![wild_write(rng, game)];
    }
    let mut new = old.to_vec();
    let layout = game.layout();
    let page = PageNo(rng.below(layout.pages.into()) as u32);
    match rng.below(6) {
        0 => split_free_run(rng, &mut new, layout, page),
        1 => swap_free_runs(&mut new, layout),
        2 => close_free_list(&mut new, layout, page),
        3 => empty_class_page(&mut new, layout, page),
        4 => move_peak(rng, &mut new, layout),
        _ => join_taken_runs(&mut new, layout, page),
    }
    let turn = |at| Turn::Damage {
        at,
        bits: word(old, at) ^ word(&new, at),
    };
    let words = (0..game.edition().page_at(game.pages(), 0)).step_by(8);
    let differ = |at: &usize| word(old, *at) != word(&new, *at);
    words.filter(differ).map(turn).collect()
}

fn wild_write(rng: &mut Rng, game: &Game) -> Turn {
    let (edition, pages) = (game.edition(), game.pages());
    let page = rng.below(pages as u64) as usize;
    let at = match rng.below(8) {
        0 => 0,
        1 | 2 => {
            let class = edition.class_record_at(rng.below(CLASSES as u64) as usize);
            class + 8 * rng.below(edition.class_record as u64 / 8) as usize
        }
        3 if game.map_bytes(page) > 0 => {
            let word = rng.below(game.map_bytes(page) as u64 / 8) as usize;
            edition.page_at(pages, page) + 8 * word
        }
        4 => edition.page_record_at(page),
        _ => edition.page_record_at(page) + 8,
    };
    let bits = match rng.below(5) {
        // The other edition.
        _ if at == 0 && rng.once_in(4) => 3 << 56,
        // A page number for another one, in one of the links.
        0 => rng.below(pages as u64 * 2) << rng.pick(&[0, 9, 25, 48]),
        1 => u64::MAX << rng.below(64),
        2 => rng.word(),
        // All bits cleared.
        3 => word(game.pool(), at),
        _ => 1 << rng.below(64),
    };
    Turn::Damage { at, bits }
}

/// Makes one free run two that touch, both on the list.
fn split_free_run(rng: &mut Rng, pool: &mut [u8], layout: Layout, page: PageNo) {
    let record = PageRecord::read(pool, layout, page);
    if record.kind != FREE_FIRST || record.run < 2 {
        return;
    }
    let left = 1 + rng.below(u64::from(record.run) - 1) as u32;
    let second = page.plus(left);
    let right = record.run - left;
    for (first, run, next, previous) in [
        (page, left, second, record.previous),
        (second, right, record.next, page),
    ] {
        let record = PageRecord {
            run,
            next,
            previous,
            ..PageRecord::new(FREE_FIRST)
        };
        record.write(pool, layout, first);
        if run > 1 {
            set_previous(pool, layout, first.plus(run - 1), first);
        }
    }
    if record.next != PageNo::NONE {
        set_previous(pool, layout, record.next, second);
    }
}

/// Exchanges the first two free runs on the list, which stays sound.
fn swap_free_runs(pool: &mut [u8], layout: Layout) {
    let header = Header::read(pool);
    let first = header.first;
    let second = PageRecord::read(pool, layout, first).next;
    if first == PageNo::NONE || second == PageNo::NONE {
        return;
    }
    let third = PageRecord::read(pool, layout, second).next;
    Header::new(layout, header.free, second).write(pool);
    set_previous(pool, layout, second, PageNo::NONE);
    set_next(pool, layout, second, first);
    set_previous(pool, layout, first, second);
    set_next(pool, layout, first, third);
    if third != PageNo::NONE {
        set_previous(pool, layout, third, first);
    }
}

/// Leads from a free run back to the first one on the list.
fn close_free_list(pool: &mut [u8], layout: Layout, page: PageNo) {
    let first = Header::read(pool).first;
    if PageRecord::read(pool, layout, page).kind == FREE_FIRST {
        set_next(pool, layout, page, first);
        set_previous(pool, layout, first, page);
    }
}

/// Clears the marks of a class page that keeps them in its record, and counts so.
fn empty_class_page(pool: &mut [u8], layout: Layout, page: PageNo) {
    let record = PageRecord::read(pool, layout, page);
    let class = Class::new(record.class).filter(|_| record.kind == CLASS_PAGE);
    if let Some(class) = class {
        let mut counts = ClassRecord::read(pool, layout, class);
        counts.used = counts.used.wrapping_sub(record.bitmap.count_ones());
        counts.write(pool, layout, class);
        PageRecord {
            bitmap: 0,
            ..record
        }
        .write(pool, layout, page);
    }
}

/// Makes a peak some other number, which is sound if it is not below used.
fn move_peak(rng: &mut Rng, pool: &mut [u8], layout: Layout) {
    let class = Class::new(rng.below(CLASSES as u64) as u32).expect("a class");
    let mut counts = ClassRecord::read(pool, layout, class);
    if let Some(peak) = &mut counts.peak {
        peak.most = (counts.used + rng.below(6) as u32).saturating_sub(2);
        counts.write(pool, layout, class);
    }
}

/// Makes a taken run and the one right after it a single block; the pool stays
/// sound.
fn join_taken_runs(pool: &mut [u8], layout: Layout, page: PageNo) {
    let left = PageRecord::read(pool, layout, page);
    let after = page.plus(left.run);
    let right = PageRecord::read(pool, layout, after);
    let both = left.kind == TAKEN_FIRST && right.kind == TAKEN_FIRST;
    if both && after.0 < layout.pages {
        let run = left.run + right.run;
        PageRecord { run, ..left }.write(pool, layout, page);
        PageRecord::new(TAKEN_INSIDE).write(pool, layout, after);
    }
}
