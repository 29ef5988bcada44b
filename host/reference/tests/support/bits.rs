//! Fields of a pool by bit position, read without the crate's own layout.

use support::Edition;

/// Bits before the header's fields.
pub const EDITION: usize = 0;
pub const MIN_SHIFT: usize = 8;
pub const PAGE_SHIFT: usize = 12;
pub const PAGES: usize = 16;
pub const FREE: usize = 32;
pub const FIRST: usize = 48;

/// Bits before a class record's fields.
pub const CLASS_FIRST: usize = 0;
pub const USED: usize = 16;
pub const TOTAL: usize = 40;
pub const REQS: usize = 64;
pub const FAILS: usize = 96;
/// In edition 2 alone.
pub const PEAK: usize = 128;
pub const PEAK_ZEROS: usize = 152;

/// Bits before a page record's fields.
pub const MAP: usize = 0;
pub const KIND: usize = 64;
pub const CLASS: usize = 67;
pub const RUN: usize = 71;
pub const NEXT: usize = 87;
pub const PREVIOUS: usize = 103;
pub const ZEROS: usize = 119;

/// The bit at which a class's record begins.
pub fn class_record(edition: Edition, class: usize) -> usize {
    edition.class_record_at(class) * 8
}

/// The bit at which a page's record begins.
pub fn page_record(edition: Edition, page: usize) -> usize {
    edition.page_record_at(page) * 8
}

/// The number in `width` bits from bit `at`, counted from the top of byte 0.
pub fn get(bytes: &[u8], at: usize, width: usize) -> u64 {
    (at..at + width).fold(0, |number, bit| {
        number << 1 | u64::from(bytes[bit / 8] >> (7 - bit % 8) & 1)
    })
}

/// Puts a number into `width` bits from bit `at`.
pub fn set(bytes: &mut [u8], at: usize, width: usize, number: u64) {
    for bit in at..at + width {
        let mark = 0x80 >> (bit % 8);
        if number >> (at + width - 1 - bit) & 1 == 1 {
            bytes[bit / 8] |= mark;
        } else {
            bytes[bit / 8] &= !mark;
        }
    }
}
