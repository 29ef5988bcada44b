//! The shared pool's slab allocator in fast ordinary Rust, without proofs.
//!
//! Benchmarks measure the proved allocator by it. Tests hold it against the
//! second program, which is written to be read and not to be fast. It knows
//! edition 1 of the records alone, which is the one that speed is measured on.
//!
//! - [`packed`] works on the bytes of a pool, as the proved allocator does.
//! - [`native`] follows the same rules on structs of its own, as nginx does.

#![forbid(unsafe_code)]
#![warn(missing_docs)]

mod class;
mod map;
pub mod native;
pub mod packed;
mod words;

pub use reference::Refusal;
