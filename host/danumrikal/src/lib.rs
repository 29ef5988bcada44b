//! The proved pool's calls, for Rust.
//!
//! A [`Pool`] is lent bytes. Every call takes them, whatever they hold, and
//! answers: nothing has to be checked first. The work is done by the static
//! library that `rt lib` builds of the proved crates, in `crates/danumrikal`;
//! this crate declares its functions, takes their answers apart and finds a
//! block's bytes, which is tested and not proved. `docs/SPEC.md` has all rules.
//!
//! ```
//! use danumrikal::{Edition, Pool, Refusal};
//!
//! let mut bytes = vec![0; Edition::One.length(12)];
//! let mut pool = Pool::new(&mut bytes);
//! assert_eq!(pool.format(Edition::One), Ok(12));
//! let stars = pool.alloc(30)?;
//! let text = pool.block_mut(stars, 30).expect("inside the pages");
//! text.copy_from_slice(b"Vega, Altair, Deneb, Arcturus.");
//! assert_eq!(pool.free(stars), Ok(32)); // the bytes of its chunk
//! assert_eq!(pool.free(stars), Err(Refusal::NotTaken));
//! assert_eq!(pool.check(), Ok(()));
//! # Ok::<(), Refusal>(())
//! ```
//!
//! Records have two editions, which differ in what they keep of each class:
//! [`Edition`]. Every call serves both, and [`convert`] leads from the first to
//! the second.
//!
//! A [`Gauge`] smooths the number of pages in use, for a panel that trips above a
//! level. A [`Keeper`] keeps records by key, in blocks of a pool.
//!
//! What the host program keeps: the memory and its mapping, a lock where
//! processes share a pool, so that nobody else writes any of it while its bytes
//! are lent, which block is whose and how long, and that between calls nobody
//! writes header, records and maps. Where somebody does, [`Pool::alloc`],
//! [`Pool::free`], [`Pool::free_all`] and [`Pool::batch`] refuse with
//! [`Refusal::NotSound`] as long as the records are unsound. Where links or counts
//! were lost, [`mend`] makes a sound copy, and [`check_mended`] tries one, whoever
//! made it.

#![deny(missing_docs)]

mod batch;
mod convert;
mod edition;
mod ffi;
mod free_all;
mod gauge;
mod keeper;
mod mend;
mod pool;
mod refusal;
mod rule;

pub use batch::{Answer, Request};
pub use convert::convert;
pub use edition::Edition;
pub use free_all::Failed;
pub use gauge::Gauge;
pub use keeper::{Keeper, MOST_PLACES};
pub use mend::{check_mended, mend};
pub use pool::{check, pages_in_use, peaks, Offset, Pool, CLASSES, MOST_PAGES, PAGE};
pub use refusal::Refusal;
pub use rule::Rule;

#[cfg(doctest)]
#[doc = include_str!("../../../README.md")]
struct Readme;
