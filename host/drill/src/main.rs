//! The crash drill: a process is stopped after every instruction of a call on a
//! mapped pool. Each image that it would leave there is judged, mended where it
//! is not sound, and the figures are printed. `docs/CRASH-DRILL.md` has them.

mod calls;
mod steps;
mod sys;
mod table;

use std::process::ExitCode;

use calls::Kind;
use steps::stops;
use table::{Judge, Row};

/// Calls of each kind, where no other number is asked for.
const USUAL: usize = 50;

fn main() -> ExitCode {
    let words: Vec<String> = std::env::args().skip(1).collect();
    let count = match words.as_slice() {
        [] => Some(USUAL),
        [count] => count.parse().ok().filter(|&count| count > 0),
        _ => None,
    };
    let Some(count) = count else {
        eprintln!("drill: how many calls of each kind, or nothing for {USUAL}");
        return ExitCode::from(2);
    };
    println!("{}", table::head());
    for kind in Kind::ALL {
        let mut row = Row::default();
        for trial in calls::trials(kind, count) {
            let judge = Judge::of(&trial);
            let images = match stops(&trial.pool, |pool| trial.serve(pool)) {
                Ok(images) => images,
                Err(error) => {
                    eprintln!("drill: stepping through a process: {error}");
                    return ExitCode::FAILURE;
                }
            };
            row.add(&judge, &images);
        }
        println!("{}", row.line(kind));
    }
    ExitCode::SUCCESS
}
