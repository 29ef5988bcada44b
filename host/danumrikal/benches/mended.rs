//! Microseconds to mend a pool whose links were lost, and to check the copy: the
//! proved calls, and the second program's.

mod common;

use std::hint::black_box;

use common::filled;
use danumrikal::{check_mended, mend};
use reference::layout::{set_next, set_previous, PageNo};
use reference::Layout;
use support::{best_in_turn, EDITIONS};

const ROUNDS: usize = 25;

/// A filled pool in which no page leads to another any more.
fn damaged(edition: u8, length: usize) -> Vec<u8> {
    let mut pool = filled(edition, length);
    let layout = Layout::of(&pool).expect("a pool");
    for page in (0..layout.pages).map(PageNo) {
        set_next(&mut pool, layout, page, PageNo::NONE);
        set_previous(&mut pool, layout, page, PageNo::NONE);
    }
    pool
}

/// Makes so many copies, and answers the sum of the page counts.
fn mends<'a, E: std::fmt::Debug>(
    calls: usize,
    pool: &'a [u8],
    mend: impl Fn(&[u8], &mut [u8]) -> Result<u32, E> + 'a,
) -> impl FnMut() -> u64 + 'a {
    let mut copy = vec![0; pool.len()];
    move || {
        (0..calls)
            .map(|_| u64::from(mend(black_box(pool), &mut copy).expect("not beyond mending")))
            .sum()
    }
}

/// Checks a copy so many times, and answers how often it was accepted.
fn checks<'a, E>(
    calls: usize,
    pool: &'a [u8],
    copy: &'a [u8],
    check: impl Fn(&[u8], &[u8]) -> Result<(), E> + 'a,
) -> impl FnMut() -> u64 + 'a {
    move || {
        let accepted = |_: &usize| check(black_box(pool), black_box(copy)).is_ok();
        (0..calls).filter(accepted).count() as u64
    }
}

fn main() {
    println!("                mend                        check");
    println!("edition  pages    proved   second   ratio    proved   second   ratio");
    for (edition, pages) in EDITIONS.into_iter().flat_map(|e| [(e, 256), (e, 4_096)]) {
        let pool = &damaged(edition.number, edition.length(pages));
        let mut copy = vec![0; pool.len()];
        mend(pool, &mut copy).expect("not beyond mending");
        let mut other = vec![0; pool.len()];
        reference::mend(pool, &mut other).expect("not beyond mending");
        assert!(copy == other, "copies differ");

        let calls = 20_000 / pages + 1;
        let best = best_in_turn(
            ROUNDS,
            [
                &mut mends(calls, pool, mend),
                &mut mends(calls, pool, reference::mend),
            ],
        );
        let [proved_mend, second_mend] = best.map(|time| time / calls as f64 / 1_000.0);
        let best = best_in_turn(
            ROUNDS,
            [
                &mut checks(calls, pool, &copy, check_mended),
                &mut checks(calls, pool, &copy, reference::check_mended),
            ],
        );
        let [proved, second] = best.map(|time| time / calls as f64 / 1_000.0);
        println!(
            "{:7}  {pages:5}  {proved_mend:8.1} {second_mend:8.1} {:7.2}  {proved:8.1} {second:8.1} {:7.2}",
            edition.number,
            proved_mend / second_mend,
            proved / second
        );
    }
}
