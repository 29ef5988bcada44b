//! Nanoseconds a request, of 100,000 mixed allocs and frees in one batch: the
//! proved call, and what it is measured by.

use danumrikal::{Answer, Pool, Request};
use support::{best_in_turn, requests, ONE};
use yardstick::{native, packed};

const REQUESTS: usize = 100_000;
const ROUNDS: usize = 60;

/// Serves the requests as one batch on a fresh pool of bytes, and tells the last
/// answer.
fn on_bytes<'a, A: Copy, E: std::fmt::Debug>(
    pages: usize,
    answers: &'a mut [A],
    batch: impl Fn(&mut [u8], &mut [A]) -> Result<(), E> + 'a,
    word: impl Fn(A) -> u64 + 'a,
) -> impl FnMut() -> u64 + 'a {
    let mut pool = vec![0; ONE.length(pages)];
    move || {
        packed::format(&mut pool).expect("a length that holds pages");
        batch(&mut pool, answers).expect("a sound pool, and room for the answers");
        word(answers[REQUESTS - 1])
    }
}

fn main() {
    println!(
        "pages   proved  packed  native  second    proved/packed  proved/native  proved/second"
    );
    for pages in [12, 64, 256, 4_096] {
        let new = || native::Pool::new(pages as u16);
        let list = &requests(
            REQUESTS,
            &mut new(),
            native::Pool::alloc,
            native::Pool::free,
        );
        let asked: &Vec<_> = &list.iter().copied().map(Request::from_word).collect();
        let mut answers = vec![Answer::default(); REQUESTS];
        let mut words = [(); 3].map(|()| vec![0; REQUESTS]);
        let [on_packed, on_native, by_second] = &mut words;

        let best = {
            let mut proved = on_bytes(
                pages,
                &mut answers,
                |pool, answers| Pool::new(pool).batch(asked, answers),
                Answer::word,
            );
            let mut packed = on_bytes(
                pages,
                on_packed,
                |pool, answers| packed::batch(pool, list, answers),
                |word| word,
            );
            let mut native = || {
                new().batch(list, on_native).expect("room for the answers");
                on_native[REQUESTS - 1]
            };
            let mut second = on_bytes(
                pages,
                by_second,
                |pool, answers| reference::batch(pool, list, answers),
                |word| word,
            );

            let runs: [&mut dyn FnMut() -> u64; 4] =
                [&mut proved, &mut packed, &mut native, &mut second];
            best_in_turn(ROUNDS, runs)
        };
        let [proved, packed, native, second] = best.map(|time| time / REQUESTS as f64);
        println!(
            "{pages:5}  {proved:7.1} {packed:7.1} {native:7.1} {second:7.1}    {:13.2}  {:13.2}  {:13.2}",
            proved / packed,
            proved / native,
            proved / second
        );
        for other in &words {
            let alike = answers
                .iter()
                .zip(other)
                .all(|(ours, theirs)| ours.word() == *theirs);
            assert!(alike, "answers differ");
        }
    }
}
