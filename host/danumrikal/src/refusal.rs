use std::fmt;

/// Why a call was refused. More may come with further calls.
///
/// ```
/// use danumrikal::{Edition, Pool, Refusal};
///
/// let refused = Pool::new(&mut [0; 4_263]).format(Edition::One).unwrap_err();
/// assert_eq!(refused, Refusal::TooShort);
/// assert_eq!(refused.to_string(), "too short (1)");
/// ```
#[non_exhaustive]
#[derive(Clone, Copy, Debug, PartialEq, Eq, Hash)]
pub enum Refusal {
    /// Format: the slice holds no page.
    TooShort = 1,
    /// Format: the slice holds more than 4,096 pages.
    TooLong = 2,
    /// Alloc, free or batch: the records break a rule. Convert: the source is no
    /// sound pool of edition 1. Check of a mended pool: the copy's records break
    /// a rule. Put, find or remove: the pool's records do, or the directory is
    /// not sound.
    NotSound = 3,
    /// Alloc or put: no free chunk and no free page, or no run long enough.
    NoRoom = 4,
    /// Free: the offset lies past the pages.
    Outside = 5,
    /// Free: the page is free, or the chunk is.
    NotTaken = 6,
    /// Free: no block can begin at the offset.
    NotAStart = 7,
    /// In a batch: a request with stray bits.
    Unreadable = 8,
    /// Alloc: the size is 0. Put: the record has no byte.
    NothingAsked = 10,
    /// Batch: fewer answers than requests.
    AnswersTooShort = 11,
    /// Convert: the target does not hold as many pages. Mend: it has another
    /// length. Check of a mended pool: lengths or edition bytes differ. Put: the
    /// record has more than 65,535 bytes.
    WrongLength = 12,
    /// Mend, and check of a mended pool: what tells the live blocks of the
    /// damaged one is damaged too.
    BeyondMending = 13,
    /// Check of a mended pool: the copy has other live blocks, or other bytes in
    /// the pages or behind them.
    OtherBlocks = 14,
    /// Gauge: a count, load or level that is no number from 0 to 4,096, or more
    /// than 40 samples.
    OutOfRange = 15,
    /// Put: a new key, and no empty place in the directory.
    NoPlace = 17,
    /// Find or remove: no place of the directory holds the key.
    NotHeld = 18,
}

const ALL: [Refusal; 16] = [
    Refusal::TooShort,
    Refusal::TooLong,
    Refusal::NotSound,
    Refusal::NoRoom,
    Refusal::Outside,
    Refusal::NotTaken,
    Refusal::NotAStart,
    Refusal::Unreadable,
    Refusal::NothingAsked,
    Refusal::AnswersTooShort,
    Refusal::WrongLength,
    Refusal::BeyondMending,
    Refusal::OtherBlocks,
    Refusal::OutOfRange,
    Refusal::NoPlace,
    Refusal::NotHeld,
];

impl Refusal {
    /// The refusal with this number, if there is one.
    pub(crate) fn from_number(number: u8) -> Option<Refusal> {
        ALL.into_iter().find(|refusal| refusal.number() == number)
    }

    /// The refusal's number in the table of refusals.
    ///
    /// ```
    /// assert_eq!(danumrikal::Refusal::NotTaken.number(), 6);
    /// ```
    pub fn number(self) -> u8 {
        self as u8
    }

    /// The refusal's name in the table of refusals.
    ///
    /// ```
    /// assert_eq!(danumrikal::Refusal::NotTaken.name(), "not taken");
    /// ```
    pub fn name(self) -> &'static str {
        match self {
            Refusal::TooShort => "too short",
            Refusal::TooLong => "too long",
            Refusal::NotSound => "not sound",
            Refusal::NoRoom => "no room",
            Refusal::Outside => "outside",
            Refusal::NotTaken => "not taken",
            Refusal::NotAStart => "not a start",
            Refusal::Unreadable => "unreadable",
            Refusal::NothingAsked => "nothing asked",
            Refusal::AnswersTooShort => "answers too short",
            Refusal::WrongLength => "wrong length",
            Refusal::BeyondMending => "beyond mending",
            Refusal::OtherBlocks => "other blocks",
            Refusal::OutOfRange => "out of range",
            Refusal::NoPlace => "no place",
            Refusal::NotHeld => "not held",
        }
    }
}

impl fmt::Display for Refusal {
    fn fmt(&self, f: &mut fmt::Formatter<'_>) -> fmt::Result {
        write!(f, "{} ({})", self.name(), self.number())
    }
}

impl std::error::Error for Refusal {}
