//! Serves 10,000 fixed requests with one allocator, one by one or as a batch,
//! after as many others as one likes, and prints a checksum of the answers.
//! `host/count` counts the instructions inside single functions: the proved
//! library's exported ones and the `count_` ones here, which therefore are never
//! inlined. What comes before the 10,000 requests goes through other functions
//! and is not counted.

#![forbid(unsafe_code)]

use std::process::ExitCode;

use danumrikal::{check, Answer, Offset, Pool, Request, Rule};
use support::{requests, serve, sum_of, ONE};
use yardstick::{native, packed, Refusal};

const REQUESTS: usize = 10_000;

#[inline(never)]
fn count_packed_validate(pool: &[u8]) -> u8 {
    packed::broken_rule(pool)
}

#[inline(never)]
fn count_packed_alloc(pool: &mut [u8], size: u32) -> Result<u32, Refusal> {
    packed::alloc_sound(pool, size)
}

#[inline(never)]
fn count_packed_free(pool: &mut [u8], offset: u32) -> Result<u32, Refusal> {
    packed::free_sound(pool, offset)
}

#[inline(never)]
fn count_native_alloc(pool: &mut native::Pool, size: u32) -> Result<u32, Refusal> {
    pool.alloc(size)
}

#[inline(never)]
fn count_native_free(pool: &mut native::Pool, offset: u32) -> Result<u32, Refusal> {
    pool.free(offset)
}

#[inline(never)]
fn count_packed_batch(pool: &mut [u8], requests: &[u64], answers: &mut [u64]) {
    packed::batch(pool, requests, answers).expect("a sound pool, and room for the answers");
}

#[inline(never)]
fn count_native_batch(pool: &mut native::Pool, requests: &[u64], answers: &mut [u64]) {
    pool.batch(requests, answers).expect("room for the answers");
}

/// The proved batch, which is counted by its exported name.
fn proved_batch(pool: &mut [u8], requests: &[u64], answers: &mut [u64]) {
    let requests: Vec<_> = requests.iter().copied().map(Request::from_word).collect();
    let mut given = vec![Answer::default(); answers.len()];
    let done = Pool::new(pool).batch(&requests, &mut given);
    done.expect("a sound pool, and room for the answers");
    for (word, answer) in answers.iter_mut().zip(given) {
        *word = answer.word();
    }
}

/// A pool of packed bytes after these requests.
fn packed_pool(pages: u16, before: &[u64]) -> Vec<u8> {
    let mut pool = vec![0; ONE.length(usize::from(pages))];
    packed::format(&mut pool).expect("a length that holds pages");
    let (alloc, free) = (packed::alloc_sound, packed::free_sound);
    serve(before, pool.as_mut_slice(), alloc, free, Refusal::number);
    pool
}

/// A pool of native structs after these requests.
fn native_pool(pages: u16, before: &[u64]) -> native::Pool {
    let mut pool = native::Pool::new(pages);
    let (alloc, free) = (native::Pool::alloc, native::Pool::free);
    serve(before, &mut pool, alloc, free, Refusal::number);
    pool
}

/// Serves the requests as one batch.
fn serve_batch<P>(mut pool: P, list: &[u64], batch: fn(&mut P, &[u64], &mut [u64])) -> u64 {
    let mut answers = vec![0; list.len()];
    batch(&mut pool, list, &mut answers);
    sum_of(answers)
}

/// Serves the requests on packed bytes, with a validation before each.
fn serve_packed<E>(
    mut pool: Vec<u8>,
    list: &[u64],
    validate: fn(&[u8]) -> u8,
    alloc: fn(&mut [u8], u32) -> Result<u32, E>,
    free: fn(&mut [u8], u32) -> Result<u32, E>,
    number: fn(E) -> u8,
) -> u64 {
    let pool = pool.as_mut_slice();
    let validated = |pool: &[u8]| assert_eq!(validate(pool), 0);
    serve(
        list,
        pool,
        |pool, size| {
            validated(pool);
            alloc(pool, size)
        },
        |pool, offset| {
            validated(pool);
            free(pool, offset)
        },
        number,
    )
}

/// The checksum of the allocator with this name.
fn checksum(who: &str, pages: u16, before: usize) -> Option<u64> {
    let pool = &mut native::Pool::new(pages);
    let (alloc, free) = (native::Pool::alloc, native::Pool::free);
    let all = requests(before + REQUESTS, pool, alloc, free);
    let (before, list) = all.split_at(before);
    match who {
        "proved" => Some(serve_packed(
            packed_pool(pages, before),
            list,
            |pool| check(pool).err().map_or(0, Rule::number),
            |pool, size| Pool::new(pool).alloc(size).map(|offset| offset.0),
            |pool, offset| Pool::new(pool).free(Offset(offset)),
            danumrikal::Refusal::number,
        )),
        "packed" => Some(serve_packed(
            packed_pool(pages, before),
            list,
            count_packed_validate,
            count_packed_alloc,
            count_packed_free,
            Refusal::number,
        )),
        "native" => {
            let pool = &mut native_pool(pages, before);
            let (alloc, free) = (count_native_alloc, count_native_free);
            Some(serve(list, pool, alloc, free, Refusal::number))
        }
        "proved-batch" => {
            let pool = packed_pool(pages, before);
            Some(serve_batch(pool, list, |pool, xs, ys| {
                proved_batch(pool, xs, ys)
            }))
        }
        "packed-batch" => {
            let pool = packed_pool(pages, before);
            Some(serve_batch(pool, list, |pool, xs, ys| {
                count_packed_batch(pool, xs, ys)
            }))
        }
        "native-batch" => Some(serve_batch(
            native_pool(pages, before),
            list,
            count_native_batch,
        )),
        _ => None,
    }
}

fn main() -> ExitCode {
    let words: Vec<String> = std::env::args().skip(1).collect();
    let sum = match words.as_slice() {
        [who, pages, before] => match (pages.parse(), before.parse()) {
            (Ok(pages @ 1..=4_096), Ok(before)) => checksum(who, pages, before),
            _ => None,
        },
        _ => None,
    };
    let Some(sum) = sum else {
        eprintln!("counting: proved, packed or native, or one with -batch; 1 to 4096 pages; requests before");
        return ExitCode::FAILURE;
    };
    println!("{sum}");
    ExitCode::SUCCESS
}
