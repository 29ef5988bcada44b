//! Chunks of the nine classes.

use super::{Kind, Pool, HEADS, MOST_PAGES};
use crate::class::{map_words, shift, FIRST_IN_RECORD, FIRST_MARK, FULL, OWN, SERVING, UNUSED};
use crate::map::{give, give_to_words, take_from_words, take_lowest};
use crate::Refusal;

impl Pool {
    #[inline(always)]
    pub(super) fn alloc_chunk(&mut self, class: usize) -> Result<u32, Refusal> {
        let counts = &mut self.classes[class];
        counts.asks = counts.asks.saturating_add(1);
        let head = HEADS + class as u16;
        let page = self.node(head).next;
        if page == head {
            return self.cut_page(class);
        }
        let (chunk, full) = if class < FIRST_IN_RECORD {
            take_from_words(self.words(page, class))
        } else {
            take_lowest(&mut self.node(page).map).map(|(chunk, map)| (chunk, map == FULL[class]))
        }
        .ok_or(Refusal::NotSound)?;
        self.classes[class].used += 1;
        if full {
            self.unlink(page);
        }
        Ok(u32::from(page) << 12 | chunk << shift(class))
    }

    /// Cuts a free page into chunks for a class with an empty list.
    #[inline(always)]
    fn cut_page(&mut self, class: usize) -> Result<u32, Refusal> {
        let Some(page) = self.cut_run(1) else {
            let counts = &mut self.classes[class];
            counts.failures = counts.failures.saturating_add(1);
            return Err(Refusal::NoRoom);
        };
        let map = UNUSED[class] | FIRST_MARK >> OWN[class];
        if class < FIRST_IN_RECORD {
            let words = self.words(page, class);
            words.fill(0);
            words[0] = map;
        }
        let node = self.node(page);
        (node.kind, node.class, node.map) = (Kind::Class, class as u8, map);
        self.link_first(HEADS + class as u16, page);
        let counts = &mut self.classes[class];
        counts.used += 1;
        counts.total += SERVING[class];
        Ok(u32::from(page) << 12 | OWN[class] << shift(class))
    }

    #[inline(always)]
    pub(super) fn free_chunk(&mut self, page: u16, within: u32) -> Result<u32, Refusal> {
        let node = self.node(page);
        let class = usize::from(node.class);
        let chunk = within >> shift(class);
        if chunk << shift(class) != within || chunk < OWN[class] {
            return Err(Refusal::NotAStart);
        }
        let (was_full, unused) = if class < FIRST_IN_RECORD {
            give_to_words(self.words(page, class), chunk, UNUSED[class])?
        } else {
            let (old, new) = give(&mut node.map, chunk)?;
            (old == FULL[class], new == 0)
        };
        self.classes[class].used -= 1;
        if was_full {
            self.link_first(HEADS + class as u16, page);
        } else if unused {
            self.unlink(page);
            self.classes[class].total -= SERVING[class];
            self.release(page, 1);
        }
        Ok(1 << shift(class))
    }

    /// The map of a page of a class that nginx keeps in the page.
    #[inline(always)]
    fn words(&mut self, page: u16, class: usize) -> &mut [u64] {
        &mut self.maps[usize::from(page) % MOST_PAGES][..map_words(class)]
    }
}
