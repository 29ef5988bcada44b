//! The bytes of a pool: constants, packed records, and where each begins.
//!
//! Fields are packed most significant bit first, so each record is one to three
//! big-endian 64-bit words, read and written where they stand. Where they stand
//! the edition says, which is known before anything else of a pool is read.
//!
//! A position past the slice reads as 0 and takes no write. On a sound pool
//! that never happens; it keeps the calls that skip validation from panicking
//! on damaged links.

use crate::class::{Class, CLASSES};
use crate::refusal::Refusal;

/// Binary logarithm of the smallest chunk.
pub const MIN_SHIFT: u32 = 3;
/// Binary logarithm of the page size.
pub const PAGE_SHIFT: u32 = 12;
/// Bytes in a page.
pub const PAGE_SIZE: u32 = 1 << PAGE_SHIFT;
/// The most pages a pool may have.
pub const MAX_PAGES: u32 = 4_096;

const WORD_BYTES: usize = 8;
const HEADER_BYTES: usize = 8;
const PAGE_RECORD_BYTES: usize = 16;

/// Kind of a page inside a free run.
pub const FREE_INSIDE: u32 = 0;
/// Kind of the first page of a free run.
pub const FREE_FIRST: u32 = 1;
/// Kind of a page cut into chunks.
pub const CLASS_PAGE: u32 = 2;
/// Kind of the first page of a taken run.
pub const TAKEN_FIRST: u32 = 3;
/// Kind of a page inside a taken run.
pub const TAKEN_INSIDE: u32 = 4;

/// The number of a page, or [`PageNo::NONE`].
#[derive(Clone, Copy, Debug, PartialEq, Eq)]
pub struct PageNo(pub u32);

impl PageNo {
    /// No page.
    pub const NONE: PageNo = PageNo(65_535);

    /// The page `count` pages further on.
    pub fn plus(self, count: u32) -> PageNo {
        PageNo(self.0 + count)
    }

    /// The offset of byte `within` of this page.
    pub fn offset(self, within: u32) -> Offset {
        Offset((self.0 << PAGE_SHIFT) + within)
    }
}

/// A byte offset, counted from the first page.
#[derive(Clone, Copy, Debug, PartialEq, Eq)]
pub struct Offset(pub u32);

impl Offset {
    /// The page this byte lies in.
    pub fn page(self) -> PageNo {
        PageNo(self.0 >> PAGE_SHIFT)
    }

    /// The byte's place in its page.
    pub fn within(self) -> u32 {
        self.0 & (PAGE_SIZE - 1)
    }
}

/// An edition of the records.
#[derive(Clone, Copy, Debug, PartialEq, Eq)]
pub enum Edition {
    /// Class records of 16 bytes.
    One,
    /// Class records of 24 bytes, the last eight for the peak.
    Two,
}

impl Edition {
    /// The edition with this number, if there is one.
    pub fn from_number(number: u8) -> Option<Edition> {
        match number {
            1 => Some(Edition::One),
            2 => Some(Edition::Two),
            _ => None,
        }
    }

    /// The number that stands in the header.
    pub fn number(self) -> u32 {
        match self {
            Edition::One => 1,
            Edition::Two => 2,
        }
    }

    fn class_record_bytes(self) -> usize {
        match self {
            Edition::One => 16,
            Edition::Two => 24,
        }
    }

    fn page_records_at(self) -> usize {
        HEADER_BYTES + CLASSES * self.class_record_bytes()
    }
}

/// Edition and page count of a pool, which say where everything lies.
#[derive(Clone, Copy, Debug, PartialEq, Eq)]
pub struct Layout {
    /// How wide the class records are.
    pub edition: Edition,
    /// How many pages there are.
    pub pages: u32,
}

impl Layout {
    /// What a slice of this length holds in the edition with this number, or
    /// why it can be no pool.
    pub fn new(edition: u8, length: usize) -> Result<Layout, Refusal> {
        let edition = Edition::from_number(edition).ok_or(Refusal::NotSound)?;
        let behind_head = length.saturating_sub(edition.page_records_at());
        let pages = behind_head / (PAGE_RECORD_BYTES + PAGE_SIZE as usize);
        if pages == 0 {
            Err(Refusal::TooShort)
        } else if pages > MAX_PAGES as usize {
            Err(Refusal::TooLong)
        } else {
            let pages = pages as u32;
            Ok(Layout { edition, pages })
        }
    }

    /// The layout of a pool, by the edition in its first byte and its length.
    pub fn of(bytes: &[u8]) -> Result<Layout, Refusal> {
        let edition = bytes.first().ok_or(Refusal::NotSound)?;
        Layout::new(*edition, bytes.len())
    }

    /// Where a page begins in the slice.
    pub fn page_at(self, page: PageNo) -> usize {
        self.page_record_at(PageNo(self.pages)) + ((page.0 as usize) << PAGE_SHIFT)
    }

    /// Where the bitmap of a page of this class begins in the slice.
    pub fn bitmap_at(self, page: PageNo, class: Class) -> usize {
        if class.bitmap_in_page() {
            self.page_at(page)
        } else {
            self.page_record_at(page)
        }
    }

    fn class_record_at(self, class: Class) -> usize {
        HEADER_BYTES + class.index() * self.edition.class_record_bytes()
    }

    fn page_record_at(self, page: PageNo) -> usize {
        self.edition.page_records_at() + page.0 as usize * PAGE_RECORD_BYTES
    }
}

/// Where word `index` of the bitmap that begins at `bitmap` begins.
pub fn bitmap_word_at(bitmap: usize, index: usize) -> usize {
    bitmap + index * WORD_BYTES
}

/// The big-endian word at this position.
pub fn word(bytes: &[u8], at: usize) -> u64 {
    match bytes.get(at..).and_then(|rest| rest.first_chunk()) {
        Some(place) => u64::from_be_bytes(*place),
        None => 0,
    }
}

/// Writes a big-endian word at this position.
pub fn set_word(bytes: &mut [u8], at: usize, word: u64) {
    if let Some(place) = bytes.get_mut(at..).and_then(|rest| rest.first_chunk_mut()) {
        *place = word.to_be_bytes();
    }
}

/// A field of a word: how many bits stand above it, and its width.
#[derive(Clone, Copy)]
struct Field {
    above: u32,
    width: u32,
}

const fn field(above: u32, width: u32) -> Field {
    Field { above, width }
}

impl Field {
    fn mask(self) -> u64 {
        (1 << self.width) - 1
    }

    fn shift(self) -> u32 {
        u64::BITS - self.above - self.width
    }

    fn bits(self, word: u64) -> u64 {
        word >> self.shift() & self.mask()
    }

    fn get(self, word: u64) -> u32 {
        self.bits(word) as u32
    }

    fn page(self, word: u64) -> PageNo {
        PageNo(self.get(word))
    }

    fn put(self, value: u32) -> u64 {
        (u64::from(value) & self.mask()) << self.shift()
    }

    fn replace(self, word: u64, value: u32) -> u64 {
        word & !(self.mask() << self.shift()) | self.put(value)
    }
}

const HEADER_EDITION: Field = field(0, 8);
const HEADER_MIN_SHIFT: Field = field(8, 4);
const HEADER_PAGE_SHIFT: Field = field(12, 4);
const HEADER_PAGES: Field = field(16, 16);
const HEADER_FREE: Field = field(32, 16);
const HEADER_FIRST: Field = field(48, 16);

const CLASS_FIRST: Field = field(0, 16);
const CLASS_USED: Field = field(16, 24);
const CLASS_TOTAL: Field = field(40, 24);
const CLASS_REQS: Field = field(0, 32);
const CLASS_FAILS: Field = field(32, 32);
const CLASS_PEAK: Field = field(0, 24);
const CLASS_ZEROS: Field = field(24, 40);

const PAGE_KIND: Field = field(0, 3);
const PAGE_CLASS: Field = field(3, 4);
const PAGE_RUN: Field = field(7, 16);
const PAGE_NEXT: Field = field(23, 16);
const PAGE_PREVIOUS: Field = field(39, 16);
const PAGE_ZEROS: Field = field(55, 9);

/// The pool's header.
#[derive(Clone, Copy, Debug, PartialEq, Eq)]
pub struct Header {
    /// Edition of the layout.
    pub edition: u32,
    /// Binary logarithm of the smallest chunk.
    pub min_shift: u32,
    /// Binary logarithm of the page size.
    pub page_shift: u32,
    /// How many pages the pool has.
    pub pages: u32,
    /// How many pages are free.
    pub free: u32,
    /// First page of the first run on the free-run list.
    pub first: PageNo,
}

impl Header {
    /// The header of a pool, with its free pages and list head.
    pub fn new(layout: Layout, free: u32, first: PageNo) -> Header {
        Header {
            edition: layout.edition.number(),
            min_shift: MIN_SHIFT,
            page_shift: PAGE_SHIFT,
            pages: layout.pages,
            free,
            first,
        }
    }

    /// Reads the header.
    pub fn read(bytes: &[u8]) -> Header {
        let word = word(bytes, 0);
        Header {
            edition: HEADER_EDITION.get(word),
            min_shift: HEADER_MIN_SHIFT.get(word),
            page_shift: HEADER_PAGE_SHIFT.get(word),
            pages: HEADER_PAGES.get(word),
            free: HEADER_FREE.get(word),
            first: HEADER_FIRST.page(word),
        }
    }

    /// Writes the header.
    pub fn write(&self, bytes: &mut [u8]) {
        let word = HEADER_EDITION.put(self.edition)
            | HEADER_MIN_SHIFT.put(self.min_shift)
            | HEADER_PAGE_SHIFT.put(self.page_shift)
            | HEADER_PAGES.put(self.pages)
            | HEADER_FREE.put(self.free)
            | HEADER_FIRST.put(self.first.0);
        set_word(bytes, 0, word);
    }
}

/// The record of one class.
#[derive(Clone, Copy, Debug, PartialEq, Eq)]
pub struct ClassRecord {
    /// First page of the list of pages with a free chunk.
    pub first: PageNo,
    /// Chunks in callers' hands.
    pub used: u32,
    /// Chunks in the pages of the class.
    pub total: u32,
    /// Requests so far, up to the largest number.
    pub reqs: u32,
    /// Refused requests so far, up to the largest number.
    pub fails: u32,
    /// The third word, which edition 2 alone has.
    pub peak: Option<Peak>,
}

/// The third word of a class record.
#[derive(Clone, Copy, Debug, PartialEq, Eq)]
pub struct Peak {
    /// The largest `used` so far.
    pub most: u32,
    /// Bits without a use.
    pub zeros: u64,
}

impl ClassRecord {
    /// The record of a class without pages or history.
    pub fn new(edition: Edition) -> ClassRecord {
        ClassRecord {
            first: PageNo::NONE,
            used: 0,
            total: 0,
            reqs: 0,
            fails: 0,
            peak: None,
        }
        .in_edition(edition)
    }

    /// The same record in an edition; where that brings the peak, its history
    /// begins with the chunks used now.
    pub fn in_edition(self, edition: Edition) -> ClassRecord {
        let peak = match edition {
            Edition::One => None,
            Edition::Two => Some(Peak {
                most: self.used,
                zeros: 0,
            }),
        };
        ClassRecord { peak, ..self }
    }

    /// Counts a chunk more in use.
    pub fn count_used(&mut self) {
        self.used += 1;
        if let Some(peak) = &mut self.peak {
            peak.most = peak.most.max(self.used);
        }
    }

    /// Reads the record of a class.
    pub fn read(bytes: &[u8], layout: Layout, class: Class) -> ClassRecord {
        let at = layout.class_record_at(class);
        let list = word(bytes, at);
        let history = word(bytes, at + WORD_BYTES);
        ClassRecord {
            first: CLASS_FIRST.page(list),
            used: CLASS_USED.get(list),
            total: CLASS_TOTAL.get(list),
            reqs: CLASS_REQS.get(history),
            fails: CLASS_FAILS.get(history),
            peak: match layout.edition {
                Edition::One => None,
                Edition::Two => Some(Peak::read(word(bytes, at + 2 * WORD_BYTES))),
            },
        }
    }

    /// Writes the record of a class.
    pub fn write(&self, bytes: &mut [u8], layout: Layout, class: Class) {
        let at = layout.class_record_at(class);
        let list =
            CLASS_FIRST.put(self.first.0) | CLASS_USED.put(self.used) | CLASS_TOTAL.put(self.total);
        let history = CLASS_REQS.put(self.reqs) | CLASS_FAILS.put(self.fails);
        set_word(bytes, at, list);
        set_word(bytes, at + WORD_BYTES, history);
        if let Some(peak) = self.peak {
            set_word(bytes, at + 2 * WORD_BYTES, peak.word());
        }
    }
}

impl Peak {
    fn read(word: u64) -> Peak {
        Peak {
            most: CLASS_PEAK.get(word),
            zeros: CLASS_ZEROS.bits(word),
        }
    }

    fn word(self) -> u64 {
        CLASS_PEAK.put(self.most) | self.zeros
    }
}

/// The record of one page.
#[derive(Clone, Copy, Debug, PartialEq, Eq)]
pub struct PageRecord {
    /// Marks of the chunks, for classes that keep them here.
    pub bitmap: u64,
    /// What the page is: one of the five kinds, if the record is sound.
    pub kind: u32,
    /// Number of the class, in a class page.
    pub class: u32,
    /// Length of the run, in its first page.
    pub run: u32,
    /// Next page on the page's list.
    pub next: PageNo,
    /// Page before it on its list; in the last page of a free run, its first.
    pub previous: PageNo,
    /// Bits without a use.
    pub zeros: u32,
}

impl PageRecord {
    /// The record of a page of this kind with every other field unused.
    pub const fn new(kind: u32) -> PageRecord {
        PageRecord {
            bitmap: 0,
            kind,
            class: 0,
            run: 0,
            next: PageNo::NONE,
            previous: PageNo::NONE,
            zeros: 0,
        }
    }

    /// The same record with links and zero bits as in a page on no list.
    pub fn unlinked(self) -> PageRecord {
        PageRecord {
            next: PageNo::NONE,
            previous: PageNo::NONE,
            zeros: 0,
            ..self
        }
    }

    /// Reads the record of a page.
    pub fn read(bytes: &[u8], layout: Layout, page: PageNo) -> PageRecord {
        let at = layout.page_record_at(page);
        let fields = word(bytes, at + WORD_BYTES);
        PageRecord {
            bitmap: word(bytes, at),
            kind: PAGE_KIND.get(fields),
            class: PAGE_CLASS.get(fields),
            run: PAGE_RUN.get(fields),
            next: PAGE_NEXT.page(fields),
            previous: PAGE_PREVIOUS.page(fields),
            zeros: PAGE_ZEROS.get(fields),
        }
    }

    /// Writes the record of a page.
    pub fn write(&self, bytes: &mut [u8], layout: Layout, page: PageNo) {
        let at = layout.page_record_at(page);
        let fields = PAGE_KIND.put(self.kind)
            | PAGE_CLASS.put(self.class)
            | PAGE_RUN.put(self.run)
            | PAGE_NEXT.put(self.next.0)
            | PAGE_PREVIOUS.put(self.previous.0)
            | PAGE_ZEROS.put(self.zeros);
        set_word(bytes, at, self.bitmap);
        set_word(bytes, at + WORD_BYTES, fields);
    }
}

/// Changes a page record's `next` alone.
pub fn set_next(bytes: &mut [u8], layout: Layout, page: PageNo, next: PageNo) {
    replace_page_field(bytes, layout, page, PAGE_NEXT, next.0);
}

/// Changes a page record's `previous` alone.
pub fn set_previous(bytes: &mut [u8], layout: Layout, page: PageNo, previous: PageNo) {
    replace_page_field(bytes, layout, page, PAGE_PREVIOUS, previous.0);
}

fn replace_page_field(bytes: &mut [u8], layout: Layout, page: PageNo, field: Field, value: u32) {
    let at = layout.page_record_at(page) + WORD_BYTES;
    let fields = word(bytes, at);
    set_word(bytes, at, field.replace(fields, value));
}
