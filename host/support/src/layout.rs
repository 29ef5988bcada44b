//! Where the parts of a pool lie.

use std::ops::Range;

/// Bytes of a page.
pub const PAGE: usize = 4_096;
/// Bytes of a page record.
pub const RECORD: usize = 16;
/// Bytes of a page and its record.
pub const PER_PAGE: usize = RECORD + PAGE;
/// Bytes of the header, before the nine class records.
pub const HEADER: usize = 8;
/// Pages of the largest pool.
pub const MOST_PAGES: usize = 4_096;

/// An edition of the records.
#[derive(Clone, Copy, Debug, PartialEq, Eq)]
pub struct Edition {
    /// What a pool's first byte holds.
    pub number: u8,
    /// Bytes of a class record.
    pub class_record: usize,
}

/// Edition 1.
pub const ONE: Edition = Edition {
    number: 1,
    class_record: 16,
};
/// Edition 2, with a third word in class records for the peak.
pub const TWO: Edition = Edition {
    number: 2,
    class_record: 24,
};
/// Both editions.
pub const EDITIONS: [Edition; 2] = [ONE, TWO];

impl Edition {
    /// Bytes of header and class records, before the page records.
    pub const fn head(self) -> usize {
        self.class_record_at(9)
    }

    /// Bytes of a slice that holds exactly this many pages.
    pub const fn length(self, pages: usize) -> usize {
        self.head() + PER_PAGE * pages
    }

    /// Bytes of the shortest pool.
    pub const fn shortest(self) -> usize {
        self.length(1)
    }

    /// Bytes of the longest pool.
    pub const fn longest(self) -> usize {
        self.length(MOST_PAGES + 1) - 1
    }

    /// Where the record of a class begins.
    pub const fn class_record_at(self, class: usize) -> usize {
        HEADER + self.class_record * class
    }

    /// Where the record of a page begins.
    pub const fn page_record_at(self, page: usize) -> usize {
        self.head() + RECORD * page
    }

    /// Where a page begins in a pool of `pages` pages.
    pub const fn page_at(self, pages: usize, page: usize) -> usize {
        self.page_record_at(pages) + PAGE * page
    }

    /// The bytes of a page that callers may write, in a pool of `pages` pages:
    /// all but the `map` bytes at the page's start.
    pub fn callers_bytes(self, pages: usize, page: usize, map: usize) -> Range<usize> {
        self.page_at(pages, page) + map..self.page_at(pages, page + 1)
    }
}
