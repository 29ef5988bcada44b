//! The shared pool's slab allocator in ordinary Rust.
//!
//! This is an independent reading of the pool's rules, written without proofs.
//! Differential tests and benchmarks hold the proved allocator against it. A
//! pool is a lent slice of bytes; every call works on that slice in place.
//!
//! - [`format()`], [`validate()`], [`alloc()`], [`free()`], [`batch()`] and
//!   [`free_all()`] are the calls, on pools of both editions; [`convert()`] leads from the first to the
//!   second.
//! - [`mend()`] makes a sound copy of a pool whose links or counts were lost, and
//!   [`check_mended()`] tries one that anybody made.
//! - [`view`] predicts, from calls and answers alone, what a pool must show.
//! - [`script`] serves a text of takes and gives.
//! - [`mod@report`] prints what the image of a pool holds.
//! - [`gauge`] smooths the number of pages in use, by exact fractions.
//! - [`keeper`] keeps records by key, in a directory above the pool.

#![forbid(unsafe_code)]
#![warn(missing_docs)]

pub mod batch;
pub mod class;
pub mod convert;
pub mod free_all;
pub mod gauge;
pub mod keeper;
pub mod layout;
pub mod mend;
pub mod pool;
pub mod refusal;
pub mod report;
pub mod script;
pub mod validate;
pub mod view;

pub use batch::batch;
pub use class::{need, Class, Need, CLASSES};
pub use convert::convert;
pub use free_all::free_all;
pub use gauge::Gauge;
pub use layout::{Edition, Layout};
pub use mend::{check_mended, mend};
pub use pool::{alloc, alloc_sound, format, free, free_sound};
pub use refusal::Refusal;
pub use report::report;
pub use script::run_script;
pub use validate::{broken_rule, validate};
pub use view::{live_blocks, peaks, shown, Block, Call, LiveSet, Peaks, View};
