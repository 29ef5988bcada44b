//! Whether a pool's records are sound: one pass over the pages, which counts,
//! then one walk along each list.

use super::census::Census;
use super::layout::{
    get, next, page_count, View, CLASS_PAGE, CLASS_SHIFT, CONSTANTS, FIRST_SHIFT, FREE_FIRST, KIND,
    KIND_SHIFT, NEXT, NONE, PREVIOUS, PREVIOUS_SHIFT,
};
use crate::class::{map_words, CLASSES, FIRST_IN_RECORD, FULL};
use crate::map::is_full;

/// The number of the first rule of soundness, 1 to 6, that the slice breaks,
/// or 0 when it is sound. Any edition but 1 breaks rule 1 here.
pub fn broken_rule(bytes: &[u8]) -> u8 {
    let pages = page_count(bytes.len());
    let pool = pages.ok().and_then(|pages| View::split(bytes, pages));
    let Some(pool) = pool else {
        return 1;
    };
    let header = get(pool.header);
    if header >> 32 != CONSTANTS << 16 | pool.records.len() as u64 {
        return 1;
    }
    let mut census = Census::new();
    if !census.count(&pool) {
        return 2;
    }
    let tag = FREE_FIRST << KIND_SHIFT;
    if !pool.list_is_sound(header & NONE, census.free_runs, KIND, tag) {
        return 3;
    }
    if census.full_page_linked() {
        return 4;
    }
    let mut miscounts = (header >> 16 & NONE) ^ census.free_pages;
    for class in 0..CLASSES {
        let list = get(&pool.classes[class][0]);
        let counted = census.classes[class];
        let (first, open) = (list >> FIRST_SHIFT, counted >> FIRST_SHIFT);
        if !pool.class_list_is_sound(class, first, open) {
            return 4;
        }
        // Used and total alone: the bits above them are shifted out.
        miscounts |= (list ^ counted) << (64 - FIRST_SHIFT);
    }
    if census.unused_class_page() {
        return 5;
    }
    if miscounts != 0 {
        return 6;
    }
    0
}

impl View<'_> {
    /// Whether the list from `first` holds `length` pages, all with `tag` in
    /// the bits `mask` of their links, each leading back to the one before,
    /// and then ends. No page can come twice: leading back from both places
    /// would reach the first from one of them early.
    #[inline]
    fn list_is_sound(&self, first: u64, length: u64, mask: u64, tag: u64) -> bool {
        let mask = mask | PREVIOUS;
        let mut page = first;
        let mut expected = tag | PREVIOUS;
        for _ in 0..length {
            let Some([_, links]) = self.records.get(page as usize) else {
                return false;
            };
            let links = get(links);
            if links & mask != expected {
                return false;
            }
            expected = tag | page << PREVIOUS_SHIFT;
            page = next(links);
        }
        page == NONE
    }

    /// Whether the class list holds `open` pages of the class that are not
    /// full. As no full page has links, only a list of one could hold one.
    #[inline]
    fn class_list_is_sound(&self, class: usize, first: u64, open: u64) -> bool {
        let tag = CLASS_PAGE << KIND_SHIFT | (class as u64) << CLASS_SHIFT;
        if open != 1 {
            return self.list_is_sound(first, open, !NEXT, tag);
        }
        let Some([_, links]) = self.records.get(first as usize) else {
            return false;
        };
        get(links) == tag | NEXT | PREVIOUS && !self.page_is_full(class, first as usize)
    }

    #[inline]
    fn page_is_full(&self, class: usize, page: usize) -> bool {
        if class < FIRST_IN_RECORD {
            is_full(&self.pages[page][..map_words(class)])
        } else {
            get(&self.records[page][0]) == FULL[class]
        }
    }
}
