//! The records of a pool as they stand (SPEC 2), sound or not: for what no call
//! tells, and to show where a broken pool broke.

use danumrikal::{peaks, Edition, CLASSES, MOST_PAGES, PAGE};

use crate::class;
use crate::view::{page_count, Kind, Span};

/// No page, in first, next and previous.
pub const NONE: usize = 65_535;

/// The records of a pool whose first byte is an edition's and whose length holds
/// a page or more.
#[derive(Clone, Copy)]
pub struct Records<'a> {
    bytes: &'a [u8],
    /// What the first byte tells.
    pub edition: Edition,
    /// How many pages the length holds.
    pub pages: usize,
}

/// The header behind the page count.
pub struct Header {
    pub free: usize,
    pub first: usize,
}

/// A class record; peak and the bits behind it in edition 2.
pub struct ClassRecord {
    pub first: usize,
    pub used: usize,
    pub total: usize,
    pub asks: u32,
    pub failures: u32,
    pub peak: Option<u32>,
    pub zeros: u64,
}

/// A page record.
pub struct PageRecord {
    pub map: u64,
    pub kind: u8,
    pub class: usize,
    pub run: usize,
    pub next: usize,
    pub previous: usize,
    pub zeros: u64,
}

/// Some bits of a word: how many stand above them, and how many they are.
fn bits(word: u64, above: u32, width: u32) -> u64 {
    word << above >> (64 - width)
}

impl<'a> Records<'a> {
    /// The records of these bytes, if they can lie there.
    pub fn of(bytes: &'a [u8]) -> Option<Records<'a>> {
        let edition = Edition::of(bytes)?;
        let pages = page_count(bytes).filter(|&pages| pages <= MOST_PAGES)?;
        Some(Records {
            bytes,
            edition,
            pages,
        })
    }

    fn word(self, at: usize) -> u64 {
        let bytes = self.bytes[at..at + 8].try_into();
        u64::from_be_bytes(bytes.expect("eight bytes"))
    }

    /// The header's counts.
    pub fn header(self) -> Header {
        let word = self.word(0);
        Header {
            free: bits(word, 32, 16) as usize,
            first: bits(word, 48, 16) as usize,
        }
    }

    /// The record of a class.
    pub fn class(self, class: usize) -> ClassRecord {
        let width = (self.edition.length(0) - 8) / CLASSES;
        let at = 8 + width * class;
        let (counts, tallies) = (self.word(at), self.word(at + 8));
        let peak = peaks(self.bytes).map(|peaks| peaks[class]);
        ClassRecord {
            first: bits(counts, 0, 16) as usize,
            used: bits(counts, 16, 24) as usize,
            total: bits(counts, 40, 24) as usize,
            asks: bits(tallies, 0, 32) as u32,
            failures: bits(tallies, 32, 32) as u32,
            peak,
            zeros: peak.map_or(0, |_| bits(self.word(at + 16), 24, 40)),
        }
    }

    /// The record of a page.
    pub fn page(self, page: usize) -> PageRecord {
        let at = self.record_at(page);
        let fields = self.word(at + 8);
        PageRecord {
            map: self.word(at),
            kind: bits(fields, 0, 3) as u8,
            class: bits(fields, 3, 4) as usize,
            run: bits(fields, 7, 16) as usize,
            next: bits(fields, 23, 16) as usize,
            previous: bits(fields, 39, 16) as usize,
            zeros: bits(fields, 55, 9),
        }
    }

    /// The marks of the chunks of a page, read as a page of this class.
    pub fn marks(self, page: usize, class: usize) -> Vec<bool> {
        let at = match class::own(class) {
            0 => self.record_at(page),
            _ => self.record_at(self.pages) + PAGE * page,
        };
        let mark = |chunk| self.bytes[at + chunk / 8] << (chunk % 8) & 0x80 != 0;
        (0..class::chunks(class)).map(mark).collect()
    }

    /// The chunks of a page in callers' hands, read as a page of this class.
    pub fn used(self, page: usize, class: usize) -> usize {
        let marks = self.marks(page, class);
        let callers = marks.iter().skip(class::own(class));
        callers.filter(|&&marked| marked).count()
    }

    fn record_at(self, page: usize) -> usize {
        self.edition.length(0) + 16 * page
    }

    /// What the kinds of the pages say, page by page, fitting or not.
    pub fn spans(self) -> Vec<Span> {
        let mut spans: Vec<Span> = Vec::new();
        for first in 0..self.pages {
            let record = self.page(first);
            let (kind, inside) = match record.kind {
                0 | 1 => (Kind::Free, record.kind == 0),
                3 | 4 => (Kind::Taken, record.kind == 4),
                2 if record.class < CLASSES => {
                    let class = record.class;
                    let used = self.used(first, class);
                    (Kind::Chunks { class, used }, false)
                }
                _ => (Kind::Odd, false),
            };
            match spans.last_mut().filter(|last| inside && last.kind == kind) {
                Some(last) => last.length += 1,
                None => spans.push(Span {
                    first,
                    length: 1,
                    kind,
                }),
            }
        }
        spans
    }
}
