use std::fmt;

use crate::pool::{CLASSES, PAGE};

/// Bytes of the header.
const HEADER: usize = 8;
/// Bytes of a page's record.
const RECORD: usize = 16;

/// An edition of the records. A pool's first byte tells it, and calls look there
/// first; format is told which to make.
///
/// ```
/// use danumrikal::{Edition, Pool};
///
/// let mut bytes = vec![0; Edition::Two.length(12)];
/// assert_eq!(Edition::of(&bytes), None);
/// Pool::new(&mut bytes).format(Edition::Two)?;
/// assert_eq!(Edition::of(&bytes), Some(Edition::Two));
/// assert_eq!(Edition::Two.to_string(), "edition 2");
/// # Ok::<(), danumrikal::Refusal>(())
/// ```
#[non_exhaustive]
#[derive(Clone, Copy, Debug, PartialEq, Eq, Hash)]
pub enum Edition {
    /// Class records of 16 bytes.
    One = 1,
    /// Class records of 24 bytes: the peak of each class is kept too, which
    /// [`peaks`](crate::peaks) reads.
    Two = 2,
}

const ALL: [Edition; 2] = [Edition::One, Edition::Two];

impl Edition {
    /// The edition that the first byte tells, if it is one's. Whether the rest
    /// is a pool too, [`check`](crate::check) says.
    pub fn of(bytes: &[u8]) -> Option<Edition> {
        bytes
            .first()
            .and_then(|number| Edition::from_number(*number))
    }

    /// The edition with this number, if there is one.
    ///
    /// ```
    /// use danumrikal::Edition;
    ///
    /// assert_eq!(Edition::from_number(2), Some(Edition::Two));
    /// assert_eq!(Edition::from_number(3), None);
    /// ```
    pub fn from_number(number: u8) -> Option<Edition> {
        ALL.into_iter().find(|edition| edition.number() == number)
    }

    /// The edition's number.
    ///
    /// ```
    /// assert_eq!(danumrikal::Edition::Two.number(), 2);
    /// ```
    pub const fn number(self) -> u8 {
        self as u8
    }

    /// The length of a slice that holds exactly `pages` pages. In a longer one,
    /// too short for a page more, no call touches the tail.
    ///
    /// ```
    /// use danumrikal::Edition;
    ///
    /// assert_eq!(Edition::One.length(12), 49_496);
    /// assert_eq!(Edition::Two.length(12), 49_568);
    /// ```
    pub const fn length(self, pages: usize) -> usize {
        self.head() + (RECORD + PAGE) * pages
    }

    /// Bytes of a class record.
    const fn class_record(self) -> usize {
        match self {
            Edition::One => 16,
            Edition::Two => 24,
        }
    }

    /// Bytes of header and class records, before the page records.
    const fn head(self) -> usize {
        self.class_record_at(CLASSES)
    }

    /// Where the record of a class begins.
    pub(crate) const fn class_record_at(self, class: usize) -> usize {
        HEADER + self.class_record() * class
    }

    /// How many pages a slice holds, and where the first begins; `None` where it
    /// is too short for header and class records.
    pub(crate) fn pages(self, length: usize) -> Option<(usize, usize)> {
        let pages = length.checked_sub(self.head())? / (RECORD + PAGE);
        Some((pages, self.head() + RECORD * pages))
    }
}

impl fmt::Display for Edition {
    fn fmt(&self, f: &mut fmt::Formatter<'_>) -> fmt::Result {
        write!(f, "edition {}", self.number())
    }
}
