//! Nanoseconds of a find and of a put that replaces a record, with few and with
//! all places of the directory in use, beside the validation that both begin with.

mod common;

use std::hint::black_box;
use std::time::Instant;

use common::filled;
use danumrikal::{check, Keeper, MOST_PLACES};
use support::ONE;

const ROUNDS: usize = 200;

/// The best of several rounds of so many runs, a run's nanoseconds.
fn best(runs: usize, mut run: impl FnMut()) -> f64 {
    let round = |_| {
        let start = Instant::now();
        (0..runs).for_each(|_| run());
        start.elapsed().as_nanos() as f64 / runs as f64
    };
    (0..ROUNDS).map(round).fold(f64::INFINITY, f64::min)
}

fn main() {
    println!("pages  places   validation     find      put");
    for pages in [12, 256, 4_096] {
        for places in [1, 8, MOST_PLACES] {
            let mut pool = filled(ONE.number, ONE.length(pages));
            let mut directory = vec![0; places];
            let mut keeper = Keeper::new(&mut pool, &mut directory);
            for key in 0..places as u16 {
                keeper.put(key, &[7; 20]).expect("room and a place");
            }
            let last = places as u16 - 1;
            let runs = 10_000 / pages + 1;
            let find = best(runs, || {
                black_box(keeper.find(black_box(last)).expect("a record"));
            });
            let put = best(runs, || {
                keeper.put(last, black_box(&[7; 20])).expect("room");
            });
            let validation = best(runs, || check(black_box(&pool)).expect("sound"));
            println!("{pages:5}  {places:6}   {validation:10.0} {find:8.0} {put:8.0}");
        }
    }
}
