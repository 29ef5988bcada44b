//! Where the records lie, and the fields of a page record's second word.

use crate::class::CLASSES;
use crate::Refusal;

/// A big-endian word where it stands.
pub type Word = [u8; 8];

/// A class record, or a page record: the chunk map, then the links.
pub type Record = [Word; 2];

/// A page's words.
pub type Page = [Word; 512];

/// No page.
pub const NONE: u64 = 65_535;

pub const FREE_INSIDE: u64 = 0;
pub const FREE_FIRST: u64 = 1;
pub const CLASS_PAGE: u64 = 2;
pub const TAKEN_FIRST: u64 = 3;
pub const TAKEN_INSIDE: u64 = 4;

pub const KIND: u64 = 7 << KIND_SHIFT;
pub const RUN: u64 = NONE << RUN_SHIFT;
pub const NEXT: u64 = NONE << NEXT_SHIFT;
pub const PREVIOUS: u64 = NONE << PREVIOUS_SHIFT;
pub const SPARE: u64 = 0x1FF;

pub const KIND_SHIFT: u32 = 61;
pub const CLASS_SHIFT: u32 = 57;
pub const RUN_SHIFT: u32 = 41;
pub const NEXT_SHIFT: u32 = 25;
pub const PREVIOUS_SHIFT: u32 = 9;

/// Header: edition, smallest shift and page shift.
pub const CONSTANTS: u64 = 0x013C;
/// Header: a free page, counted in this place.
pub const FREE_PAGE: u64 = 1 << 16;

/// Class record, first word: where the first page stands.
pub const FIRST_SHIFT: u32 = 48;
/// Class record, first word: a used chunk, counted in this place.
pub const USED: u64 = 1 << 24;

/// Header and class records.
const HEAD: usize = 8 + 16 * CLASSES;
/// A page and its record.
const PER_PAGE: usize = 16 + 4_096;
const MOST_PAGES: usize = 4_096;

/// The links of a page of this kind with no other field in use.
pub const fn links(kind: u64) -> u64 {
    kind << KIND_SHIFT | NEXT | PREVIOUS
}

/// The record of a page inside a run, free or taken.
pub const fn inside(kind: u64) -> Record {
    [[0; 8], links(kind).to_be_bytes()]
}

#[inline]
pub fn get(word: &Word) -> u64 {
    u64::from_be_bytes(*word)
}

#[inline]
pub fn put(word: &mut Word, value: u64) {
    *word = value.to_be_bytes();
}

#[inline]
pub fn kind(links: u64) -> u64 {
    links >> KIND_SHIFT
}

/// The class of a class page.
#[inline]
pub fn class(links: u64) -> usize {
    (links >> CLASS_SHIFT) as usize % 16
}

#[inline]
pub fn run(links: u64) -> usize {
    (links >> RUN_SHIFT) as u16 as usize
}

#[inline]
pub fn next(links: u64) -> u64 {
    links >> NEXT_SHIFT & NONE
}

#[inline]
pub fn previous(links: u64) -> u64 {
    links >> PREVIOUS_SHIFT & NONE
}

/// How many pages a slice of this length holds, or why it can be no pool.
#[inline]
pub fn page_count(length: usize) -> Result<usize, Refusal> {
    match length.saturating_sub(HEAD) / PER_PAGE {
        0 => Err(Refusal::TooShort),
        pages if pages <= MOST_PAGES => Ok(pages),
        _ => Err(Refusal::TooLong),
    }
}

/// How many pages the header says there are.
#[inline]
pub fn stated_pages(header: &Word) -> usize {
    (get(header) >> 32) as u16 as usize
}

/// A pool's parts, to read. Behind the pages the tail may seem to hold one more.
pub struct View<'a> {
    pub header: &'a Word,
    pub classes: &'a [Record],
    pub records: &'a [Record],
    pub pages: &'a [Page],
}

impl<'a> View<'a> {
    #[inline]
    pub fn split(bytes: &'a [u8], count: usize) -> Option<View<'a>> {
        let (head, rest) = bytes.split_first_chunk::<HEAD>()?;
        let (header, classes) = head.split_first_chunk()?;
        let (records, rest) = rest.split_at_checked(16 * count)?;
        Some(View {
            header,
            classes: classes.as_chunks().0.as_chunks().0,
            records: records.as_chunks().0.as_chunks().0,
            pages: rest.as_chunks().0.as_chunks().0,
        })
    }
}

/// A pool's parts, to change.
pub struct Pool<'a> {
    pub header: &'a mut Word,
    pub classes: &'a mut [Record],
    pub records: &'a mut [Record],
    pub pages: &'a mut [Page],
}

impl<'a> Pool<'a> {
    /// The parts when there are `count` pages, as the header may tell.
    #[inline]
    pub fn split(bytes: &'a mut [u8], count: impl FnOnce(&Word) -> usize) -> Option<Pool<'a>> {
        let (head, rest) = bytes.split_first_chunk_mut::<HEAD>()?;
        let (header, classes) = head.split_first_chunk_mut()?;
        let (records, rest) = rest.split_at_mut_checked(16 * count(header))?;
        Some(Pool {
            header,
            classes: classes.as_chunks_mut().0.as_chunks_mut().0,
            records: records.as_chunks_mut().0.as_chunks_mut().0,
            pages: rest.as_chunks_mut().0.as_chunks_mut().0,
        })
    }
}

#[inline]
pub fn set_next(records: &mut [Record], page: u64, next: u64) {
    let [_, links] = &mut records[page as usize];
    put(links, get(links) & !NEXT | next << NEXT_SHIFT);
}

#[inline]
pub fn set_previous(records: &mut [Record], page: u64, previous: u64) {
    let [_, links] = &mut records[page as usize];
    put(links, get(links) & !PREVIOUS | previous << PREVIOUS_SHIFT);
}

/// Takes the page with these links off the list that begins at `head`.
#[inline]
pub fn unlink(records: &mut [Record], head: &mut u64, links: u64) {
    relink(records, head, links, next(links), previous(links));
}

/// Lets the page before the one with these links lead on to `forward`, and the
/// page after it lead back to `back`.
#[inline]
pub fn relink(records: &mut [Record], head: &mut u64, links: u64, forward: u64, back: u64) {
    if previous(links) == NONE {
        *head = forward;
    } else {
        set_next(records, previous(links), forward);
    }
    if next(links) != NONE {
        set_previous(records, next(links), back);
    }
}
