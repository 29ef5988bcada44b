//! The dome's panel: the pages in use of the camera's pool, smoothed, and a trip
//! level. In the repository's root:
//!
//! ```text
//! (cd crates/danumrikal && rt lib)
//! cargo run --offline --manifest-path host/Cargo.toml -p danumrikal --example panel
//! ```

use danumrikal::{Edition, Gauge, Pool, Refusal};

/// A frame has nine pages.
const FRAME: u32 = 9 * 4_096;

/// Samples the pool and prints the panel's line.
fn show(gauge: &mut Gauge, pool: &Pool) -> Result<(), Refusal> {
    let in_use = gauge.sample_pool(pool)?;
    let lamp = if gauge.trips()? { "TRIP" } else { "ok" };
    let Gauge { load, level, .. } = gauge;
    println!("in use {in_use:>2} | load {load:6.3} | level {level:6.3} | {lamp}");
    Ok(())
}

fn main() -> Result<(), Refusal> {
    let mut bytes = vec![0; Edition::One.length(12)];
    let mut pool = Pool::new(&mut bytes);
    println!("pages: {}", pool.format(Edition::One)?);
    let mut gauge = Gauge::start(6.0)?;
    show(&mut gauge, &pool)?;
    let frame = pool.alloc(FRAME)?;
    show(&mut gauge, &pool)?;
    show(&mut gauge, &pool)?;
    pool.alloc(30)?; // the star list
    show(&mut gauge, &pool)?;
    pool.free(frame)?;
    show(&mut gauge, &pool)?;
    if let Err(refusal) = gauge.sample(4_097) {
        println!("in use 4097: {refusal}");
    }
    show(&mut gauge, &pool)
}
