//! Makes a failing case as small as it can.

use support::ONE;

use crate::case::{Case, Turn};

/// A case that still fails: fewer turns first, left out in halves, quarters and
/// so on, then a smaller pool and smaller numbers, until nothing helps any more.
pub fn shrink(mut case: Case, fails: impl Fn(&Case) -> bool) -> Case {
    loop {
        let before = case.clone();
        fewer_turns(&mut case, &fails);
        larger_chunks(&mut case, &fails);
        smaller_pool(&mut case, &fails);
        for place in 0..case.turns.len() {
            smaller_numbers(&mut case, place, &fails);
        }
        if case == before {
            return case;
        }
    }
}

/// Changes the case if it fails even so.
fn attempt(
    case: &mut Case,
    fails: &impl Fn(&Case) -> bool,
    change: impl FnOnce(&mut Case),
) -> bool {
    let mut changed = case.clone();
    change(&mut changed);
    let better = changed != *case && fails(&changed);
    if better {
        *case = changed;
    }
    better
}

fn fewer_turns(case: &mut Case, fails: &impl Fn(&Case) -> bool) {
    let mut piece = case.turns.len();
    while piece > 0 {
        let mut from = 0;
        while from < case.turns.len() {
            let to = case.turns.len().min(from + piece);
            if !attempt(case, fails, |case| drop(case.turns.drain(from..to))) {
                from += piece.div_ceil(2);
            }
        }
        piece = if piece == 1 { 0 } else { piece.div_ceil(2) };
    }
    // Turns that undo each other go only together, wherever they stand.
    if case.turns.len() <= 30 {
        let mut second = 1;
        while second < case.turns.len() {
            let left_out = (0..second).any(|first| {
                attempt(case, fails, |case| {
                    case.turns.remove(second);
                    case.turns.remove(first);
                })
            });
            if !left_out {
                second += 1;
            }
        }
    }
}

/// Pages of two chunks fill in fewer turns, where there are enough of them.
fn larger_chunks(case: &mut Case, fails: &impl Fn(&Case) -> bool) {
    let mut larger = case.clone();
    larger.setting.pages = 256;
    for (_, turn) in &mut larger.turns {
        if matches!(turn, Turn::Alloc(..2_048)) {
            *turn = Turn::Alloc(2_048);
        }
    }
    if fails(&larger) {
        fewer_turns(&mut larger, fails);
        if larger.turns.len() < case.turns.len() {
            *case = larger;
        }
    }
}

fn smaller_pool(case: &mut Case, fails: &impl Fn(&Case) -> bool) {
    attempt(case, fails, |case| case.setting.edition = ONE);
    attempt(case, fails, |case| case.setting.scrambled = false);
    attempt(case, fails, |case| case.setting.tail = 0);
    for pages in 1..case.setting.pages {
        if attempt(case, fails, |case| case.setting.pages = pages) {
            break;
        }
    }
}

fn smaller_numbers(case: &mut Case, place: usize, fails: &impl Fn(&Case) -> bool) {
    match case.turns[place].1 {
        Turn::Alloc(size) => {
            // Sizes that must share a class can only be lowered together.
            lower(case, size, fails, |case, old, new| {
                let turns = case.turns.iter_mut().map(|turn| &mut turn.1);
                for turn in turns.filter(|turn| **turn == Turn::Alloc(old)) {
                    *turn = Turn::Alloc(new);
                }
            });
            if let Turn::Alloc(size) = case.turns[place].1 {
                lower(case, size, fails, |case, _, new| {
                    case.turns[place].1 = Turn::Alloc(new)
                });
            }
        }
        Turn::Free(offset) => lower(case, offset, fails, |case, _, new| {
            case.turns[place].1 = Turn::Free(new)
        }),
        Turn::Damage { at, bits } => {
            for bit in 0..u64::BITS {
                let bits = bits & 1 << bit;
                let one = |case: &mut Case| case.turns[place].1 = Turn::Damage { at, bits };
                if bits != 0 && attempt(case, fails, one) {
                    break;
                }
            }
            // A word further ahead leaves room for fewer pages.
            lower(case, (at / 8) as u32, fails, |case, _, word| {
                if let Turn::Damage { at, .. } = &mut case.turns[place].1 {
                    *at = 8 * word as usize;
                }
            });
        }
        Turn::FreeOf(_) | Turn::Mend => {}
    }
}

/// Lowers a number by all of it, by half, by a quarter and so on; `put` puts
/// the second number where the first one was.
fn lower(
    case: &mut Case,
    mut number: u32,
    fails: &impl Fn(&Case) -> bool,
    put: impl Fn(&mut Case, u32, u32),
) {
    let mut step = number;
    while step > 0 {
        let lowered = number.saturating_sub(step);
        if attempt(case, fails, |case| put(case, number, lowered)) {
            number = lowered;
        } else {
            step /= 2;
        }
    }
}
