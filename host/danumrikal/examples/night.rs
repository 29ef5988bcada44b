//! A night at the dome: a star list, a pointing block and a leap second table
//! share one pool. In the repository's root:
//!
//! ```text
//! (cd crates/danumrikal && rt lib)
//! cargo run --offline --manifest-path host/Cargo.toml -p danumrikal --example night
//! ```

use danumrikal::{convert, Answer, Edition, Offset, Pool, Refusal, Request};

/// Takes a block and keeps a text in it.
fn keep(pool: &mut Pool, what: &str, text: &str, size: u32) -> Result<Offset, Refusal> {
    let offset = pool.alloc(size)?;
    let block = pool.block_mut(offset, size).expect("inside the pages");
    block[..text.len()].copy_from_slice(text.as_bytes());
    println!("{what}: {size} bytes at {offset}");
    Ok(offset)
}

/// Tells what became of a free.
fn tell(what: &str, answer: Result<u32, Refusal>) {
    match answer {
        Ok(bytes) => println!("{what}: {bytes} bytes back"),
        Err(refusal) => println!("{what}: {refusal}"),
    }
}

fn release(pool: &mut Pool, what: &str, offset: Offset) {
    tell(what, pool.free(offset));
}

/// At dawn both blocks go, and a dark frame takes their place: three calls under
/// one validation.
fn dawn(pool: &mut Pool, pointing: Offset, seconds: Offset) -> Result<Offset, Refusal> {
    let requests = [
        Request::free(pointing),
        Request::free(seconds),
        Request::alloc(20_000),
    ];
    let mut answers = [Answer::default(); 3];
    pool.batch(&requests, &mut answers)?;
    tell("pointing block", answers[0].value());
    tell("leap second table", answers[1].value());
    let frame = answers[2].block()?;
    println!("dark frame: at {frame}");
    Ok(frame)
}

/// The next night wants to know how many star lists there are at once: edition 2
/// keeps such peaks.
fn next_night(bytes: &[u8], frame: Offset) -> Result<(), Refusal> {
    let mut next = vec![0; Edition::Two.length(12)];
    let pages = convert(bytes, &mut next)?;
    let mut pool = Pool::new(&mut next);
    let edition = pool.edition().expect("one of the two");
    println!("next night: {pages} pages, {edition}");
    release(&mut pool, "dark frame", frame);
    let lists = [pool.alloc(30)?, pool.alloc(30)?, pool.alloc(30)?];
    release(&mut pool, "star list", lists[0]);
    let peaks = pool.peaks().expect("a pool of edition 2");
    println!("star lists at once: {}", peaks[2]); // chunks of 32 bytes
    match pool.check() {
        Ok(()) => println!("records: sound"),
        Err(rule) => println!("records: broken rule {rule}"),
    }
    Ok(())
}

fn print(pool: &Pool, what: &str, offset: Offset, size: usize) {
    let block = pool.block(offset, size as u32).expect("inside the pages");
    println!("{what}: {}", String::from_utf8_lossy(block));
}

fn main() -> Result<(), Refusal> {
    let mut bytes = vec![0; Edition::One.length(12)];
    let mut pool = Pool::new(&mut bytes);
    println!("pages: {}", pool.format(Edition::One)?);
    let stars = keep(&mut pool, "star list", "Vega, Altair, Deneb", 30)?;
    let angles = "azimuth 181.5, altitude 47.2";
    let pointing = keep(&mut pool, "pointing block", angles, 64)?;
    let last = "2016-12-31: 37";
    let seconds = keep(&mut pool, "leap second table", last, 5_000)?;
    release(&mut pool, "star list", stars);
    release(&mut pool, "star list", stars);
    print(&pool, "pointing block", pointing, angles.len());
    print(&pool, "leap second table", seconds, last.len());
    let frame = dawn(&mut pool, pointing, seconds)?;
    next_night(&bytes, frame)
}
