//! The ways a call or a script line is refused.

use std::fmt;

/// Why a call was refused. No other refusals exist.
#[derive(Clone, Copy, Debug, PartialEq, Eq)]
pub enum Refusal {
    /// Format: the slice holds no page of the edition.
    TooShort,
    /// Format: the slice holds more pages than a pool may have. Report: the
    /// image holds more than twelve.
    TooLong,
    /// Alloc, free or batch: the pool's records are not sound. Convert: the
    /// source is no sound pool of edition 1. Format: there is no such edition.
    /// Check of a mended pool: the copy is not sound. Put, find or remove: the
    /// pool or the directory is not sound.
    NotSound,
    /// Alloc: no free chunk and no free page, or no run long enough.
    NoRoom,
    /// Free: the offset lies at or past the end of the last page.
    Outside,
    /// Free: the page is free, or the chunk's mark is clear.
    NotTaken,
    /// Free: no block can begin at this offset.
    NotAStart,
    /// Script: the line is not a call. Batch: the word has stray bits.
    Unreadable,
    /// Script: the input is longer than a script may be.
    ScriptTooLong,
    /// Alloc: a size of 0. Put: a record of no bytes.
    NothingAsked,
    /// Batch: the list for answers is shorter than the requests.
    AnswersTooShort,
    /// Convert: the target's length does not hold as many pages. Mend: it is
    /// another. Check of a mended pool: lengths or edition bytes are unequal.
    /// Put: a record of more than 65,535 bytes.
    WrongLength,
    /// Mend, and check of a mended pool: header constants, page count, kinds,
    /// classes, run lengths and maps of the damaged one show no pool.
    BeyondMending,
    /// Check of a mended pool: the copy is sound, but has other live blocks,
    /// page bytes or tail.
    OtherBlocks,
    /// Gauge: a count, load or level that is no number from 0 to 4,096, or more
    /// than 40 samples.
    OutOfRange,
    /// Put: a new key, and no empty place in the directory.
    NoPlace,
    /// Find or remove: no place of the directory holds the key.
    NotHeld,
}

impl Refusal {
    /// The number that stands for this refusal in printouts and answers.
    pub fn number(self) -> u8 {
        match self {
            Refusal::TooShort => 1,
            Refusal::TooLong => 2,
            Refusal::NotSound => 3,
            Refusal::NoRoom => 4,
            Refusal::Outside => 5,
            Refusal::NotTaken => 6,
            Refusal::NotAStart => 7,
            Refusal::Unreadable => 8,
            Refusal::ScriptTooLong => 9,
            Refusal::NothingAsked => 10,
            Refusal::AnswersTooShort => 11,
            Refusal::WrongLength => 12,
            Refusal::BeyondMending => 13,
            Refusal::OtherBlocks => 14,
            Refusal::OutOfRange => 15,
            Refusal::NoPlace => 17,
            Refusal::NotHeld => 18,
        }
    }
}

impl fmt::Display for Refusal {
    fn fmt(&self, f: &mut fmt::Formatter<'_>) -> fmt::Result {
        f.write_str(match self {
            Refusal::TooShort => "too short",
            Refusal::TooLong => "too long",
            Refusal::NotSound => "not sound",
            Refusal::NoRoom => "no room",
            Refusal::Outside => "outside",
            Refusal::NotTaken => "not taken",
            Refusal::NotAStart => "not a start",
            Refusal::Unreadable => "unreadable",
            Refusal::ScriptTooLong => "script too long",
            Refusal::NothingAsked => "nothing asked",
            Refusal::AnswersTooShort => "answers too short",
            Refusal::WrongLength => "wrong length",
            Refusal::BeyondMending => "beyond mending",
            Refusal::OtherBlocks => "other blocks",
            Refusal::OutOfRange => "out of range",
            Refusal::NoPlace => "no place",
            Refusal::NotHeld => "not held",
        })
    }
}

impl std::error::Error for Refusal {}
