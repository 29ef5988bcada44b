//! The pass over the page records.

use super::layout::{
    get, inside, kind, links, run, Record, View, Word, CLASS_PAGE, CLASS_SHIFT, FIRST_SHIFT,
    FREE_FIRST, FREE_INSIDE, KIND_SHIFT, NEXT, NEXT_SHIFT, NONE, PREVIOUS, PREVIOUS_SHIFT, RUN,
    SPARE, TAKEN_FIRST, TAKEN_INSIDE, USED,
};
use crate::class::{CLASSES, FIRST_IN_RECORD, FULL, OWN, SERVING, UNUSED};

/// What one pass over the page records finds, in pages that obey rule 2.
pub struct Census {
    pub free_runs: u64,
    pub free_pages: u64,
    /// For each class used and total, as they stand in a class record, and open
    /// pages where that has the first page.
    pub classes: [u64; CLASSES],
    /// Bits that are set in the links of all full pages.
    in_full_pages: u64,
    /// Has its top bit set if a class page has no chunk in use.
    one_less: u64,
}

impl Census {
    #[inline]
    pub fn new() -> Census {
        Census {
            free_runs: 0,
            free_pages: 0,
            classes: [0; CLASSES],
            in_full_pages: u64::MAX,
            one_less: 0,
        }
    }

    #[inline]
    pub fn full_page_linked(&self) -> bool {
        let unlinked = NEXT | PREVIOUS;
        self.in_full_pages & unlinked != unlinked
    }

    #[inline]
    pub fn unused_class_page(&self) -> bool {
        self.one_less >> 63 != 0
    }

    /// Counts all pages; false when rule 2 is broken.
    #[inline]
    pub fn count(&mut self, pool: &View) -> bool {
        let mut page = 0;
        // Where the last free run ended.
        let mut free_end = usize::MAX;
        while page < pool.records.len() {
            let [map, links] = &pool.records[page];
            let links = get(links);
            // Kind and class at once.
            let class = (links >> CLASS_SHIFT).wrapping_sub(CLASS_PAGE << 4) as usize;
            if class < CLASSES {
                if !self.add_class_page(pool, page, class, map, links) {
                    return false;
                }
                page += 1;
                continue;
            }
            // No run leaves the records: 0 is one too many.
            let length = run(links);
            let others = &pool.records[page + 1..];
            let Some(others) = others.get(..length.wrapping_sub(1)) else {
                return false;
            };
            match kind(links) {
                TAKEN_FIRST if is_taken_run(map, links, others) => page += length,
                FREE_FIRST if is_free_run(map, links, others, page) && page != free_end => {
                    page += length;
                    free_end = page;
                    self.free_runs += 1;
                    self.free_pages += length as u64;
                }
                // Inside a run that has no first page, a free run that touches
                // another, or no kind at all.
                _ => return false,
            }
        }
        true
    }

    /// Without branches on what the map holds, as nothing foretells it.
    #[inline]
    fn add_class_page(
        &mut self,
        pool: &View,
        page: usize,
        class: usize,
        map: &Word,
        links: u64,
    ) -> bool {
        let map = u64::from_ne_bytes(*map);
        if links & (RUN | SPARE) != 0 || map & NO_CHUNK[class] != 0 {
            return false;
        }
        let marked = if class < FIRST_IN_RECORD {
            let words = &pool.pages[page];
            if get(&words[0]) & UNUSED[class] != UNUSED[class] {
                return false;
            }
            count_words(words, class)
        } else {
            map.count_ones()
        };
        let serving = u64::from(SERVING[class]);
        let used = u64::from(marked - OWN[class]);
        // All ones in an open page, which has a free chunk, else 0.
        let open = (used.wrapping_sub(serving) as i64 >> 63) as u64;
        self.in_full_pages &= links | open;
        self.one_less |= used.wrapping_sub(1);
        let count = &mut self.classes[class];
        *count = (*count + used * USED + serving).wrapping_sub(open << FIRST_SHIFT);
        true
    }
}

/// Bits of the map field that mark no chunk, as they lie in memory.
const NO_CHUNK: [u64; CLASSES] = {
    let mut masks = [u64::MAX; CLASSES];
    let mut class = FIRST_IN_RECORD;
    while class < CLASSES {
        masks[class] = (!FULL[class]).to_be();
        class += 1;
    }
    masks
};

/// Marks in the map at the start of a page.
#[inline]
fn count_words(words: &[Word], class: usize) -> u32 {
    fn count<const N: usize>(words: &[Word]) -> u32 {
        let ones = |word: &Word| u64::from_ne_bytes(*word).count_ones();
        words[..N].iter().map(ones).sum()
    }
    match class {
        0 => count::<8>(words),
        1 => count::<4>(words),
        _ => count::<2>(words),
    }
}

/// Whether a taken run begins with this map and these links.
#[inline]
fn is_taken_run(map: &Word, first: u64, others: &[Record]) -> bool {
    *map == [0; 8] && first & !RUN == links(TAKEN_FIRST) && all_are(others, inside(TAKEN_INSIDE))
}

/// Whether a free run begins at `page` with this map and these links.
#[inline]
fn is_free_run(map: &Word, first: u64, others: &[Record], page: usize) -> bool {
    if *map != [0; 8] || first & !(RUN | NEXT | PREVIOUS) != FREE_FIRST << KIND_SHIFT {
        return false;
    }
    let Some((last, others)) = others.split_last() else {
        return true;
    };
    let back = NONE << NEXT_SHIFT | (page as u64) << PREVIOUS_SHIFT;
    *last == [[0; 8], back.to_be_bytes()] && all_are(others, inside(FREE_INSIDE))
}

/// Looks at all of them before it answers, so that the loop has no branch.
#[inline]
fn all_are(records: &[Record], expected: Record) -> bool {
    let [map, links] = expected.map(u64::from_ne_bytes);
    let differences = records.iter().fold(0, |differences, record| {
        let [other_map, other_links] = record.map(u64::from_ne_bytes);
        differences | (other_map ^ map) | (other_links ^ links)
    });
    differences == 0
}
