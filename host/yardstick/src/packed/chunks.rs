//! Chunks of the nine classes.

use super::layout::{
    class, get, links, next, put, set_previous, unlink, Pool, Record, Word, CLASS_PAGE,
    CLASS_SHIFT, FIRST_SHIFT, NEXT, NEXT_SHIFT, NONE, PREVIOUS, USED,
};
use super::runs::{cut_run, release};
use crate::class::{map_words, shift, FIRST_IN_RECORD, FIRST_MARK, FULL, OWN, SERVING, UNUSED};
use crate::map::{give, give_to_words, take_from_words, take_lowest};
use crate::Refusal;

/// A class record's first word but for the first page.
const COUNTS: u64 = (1 << FIRST_SHIFT) - 1;

impl Pool<'_> {
    /// Takes the lowest free chunk of the first page on the class list; `None`
    /// when the list is empty.
    #[inline(always)]
    pub fn alloc_chunk(&mut self, class: usize) -> Option<u32> {
        let [list, tallies] = &mut self.classes[class];
        let old = get(list);
        if old >> FIRST_SHIFT == NONE {
            return None;
        }
        let page = (old >> FIRST_SHIFT) as usize;
        let (chunk, full) = if class < FIRST_IN_RECORD {
            take_from_words(&mut self.pages[page][..map_words(class)])?
        } else {
            let (chunk, map) = take_lowest(&mut self.records[page][0])?;
            (chunk, map == FULL[class])
        };
        raise_asks(tallies);
        let mut new = old + USED;
        if full {
            new = new & COUNTS | unlink_first(self.records, page) << FIRST_SHIFT;
        }
        put(list, new);
        Some((page as u32) << 12 | chunk << shift(class))
    }

    /// Cuts a free page into chunks for a class with an empty list, and takes
    /// the first of them.
    #[inline]
    pub fn alloc_page(&mut self, class: usize) -> Result<u32, Refusal> {
        let [list, tallies] = &mut self.classes[class];
        raise_asks(tallies);
        let Some(page) = cut_run(self.header, self.records, 1) else {
            raise_failures(tallies);
            return Err(Refusal::NoRoom);
        };
        let [in_record, at_links] = &mut self.records[page];
        put(at_links, links(CLASS_PAGE) | (class as u64) << CLASS_SHIFT);
        let map = UNUSED[class] | FIRST_MARK >> OWN[class];
        if class < FIRST_IN_RECORD {
            let words = &mut self.pages[page];
            put(&mut words[0], map);
            words[1..map_words(class)].fill([0; 8]);
        } else {
            put(in_record, map);
        }
        let counts = (get(list) & COUNTS) + USED + u64::from(SERVING[class]);
        put(list, counts | (page as u64) << FIRST_SHIFT);
        Ok((page as u32) << 12 | OWN[class] << shift(class))
    }

    /// Gives back the chunk `within` bytes into a class page with these links.
    #[inline(always)]
    pub fn free_chunk(&mut self, page: usize, links: u64, within: u32) -> Result<u32, Refusal> {
        let class = class(links);
        let chunk = within >> shift(class);
        if chunk << shift(class) != within || chunk < OWN[class] {
            return Err(Refusal::NotAStart);
        }
        let (was_full, unused) = if class < FIRST_IN_RECORD {
            let map = &mut self.pages[page][..map_words(class)];
            give_to_words(map, chunk, UNUSED[class])?
        } else {
            let (old, new) = give(&mut self.records[page][0], chunk)?;
            (old == FULL[class], new == 0)
        };
        let [list, _] = &mut self.classes[class];
        let old = get(list);
        if was_full {
            let first = old >> FIRST_SHIFT;
            link_first(self.records, page, links, first);
            let counts = (old & COUNTS) - USED;
            put(list, counts | (page as u64) << FIRST_SHIFT);
        } else if unused {
            let mut first = old >> FIRST_SHIFT;
            unlink(self.records, &mut first, links);
            let counts = (old & COUNTS) - USED - u64::from(SERVING[class]);
            put(list, counts | first << FIRST_SHIFT);
            release(self.header, self.records, page, 1);
        } else {
            put(list, old - USED);
        }
        Ok(1 << shift(class))
    }
}

/// Puts a page that was full, so has no links, before the first of its list.
#[inline(always)]
fn link_first(records: &mut [Record], page: usize, links: u64, first: u64) {
    put(&mut records[page][1], links & !NEXT | first << NEXT_SHIFT);
    if first != NONE {
        set_previous(records, first, page as u64);
    }
}

/// Takes the first page of a class list off it and answers the next one.
#[inline(always)]
fn unlink_first(records: &mut [Record], page: usize) -> u64 {
    let [_, links] = &mut records[page];
    let next = next(get(links));
    put(links, get(links) | NEXT | PREVIOUS);
    if next != NONE {
        set_previous(records, next, NONE);
    }
    next
}

#[inline]
fn raise_asks(tallies: &mut Word) {
    let old = get(tallies);
    put(tallies, old.checked_add(1 << 32).unwrap_or(old));
}

#[inline]
fn raise_failures(tallies: &mut Word) {
    let old = get(tallies);
    put(tallies, old + u64::from(old as u32 != u32::MAX));
}
