//! Numbers and calls that look random and are the same in every run, and where
//! the parts of a pool lie, for tests and benchmarks. Nothing here knows an
//! allocator.

#![forbid(unsafe_code)]
#![warn(missing_docs)]

mod habit;
mod layout;
mod requests;
mod rng;
mod script;

pub use habit::{mixed_size, offset, Habit};
pub use layout::{Edition, EDITIONS, HEADER, MOST_PAGES, ONE, PAGE, PER_PAGE, RECORD, TWO};
pub use requests::{best_in_turn, requests, serve, sum_of};
pub use rng::Rng;
pub use script::UNREADABLE;
