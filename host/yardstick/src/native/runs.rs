//! Runs of pages.

use super::{Kind, Node, Pool, FREE_RUNS};
use crate::Refusal;

impl Pool {
    /// Takes the pages that hold `size` bytes; 0 is refused.
    #[inline]
    pub(super) fn alloc_run(&mut self, size: u32) -> Result<u32, Refusal> {
        if size == 0 {
            return Err(Refusal::NothingAsked);
        }
        let wanted = size.div_ceil(4_096);
        let wanted = u16::try_from(wanted).map_err(|_| Refusal::NoRoom)?;
        let page = self.cut_run(wanted).ok_or(Refusal::NoRoom)?;
        let first = self.node(page);
        first.kind = Kind::TakenFirst;
        first.run = wanted;
        for inside in page + 1..page + wanted {
            self.node(inside).kind = Kind::TakenInside;
        }
        Ok(u32::from(page) << 12)
    }

    /// Takes pages off the front of the first run on the list that is long
    /// enough. The caller sets their kinds.
    #[inline]
    pub(super) fn cut_run(&mut self, wanted: u16) -> Option<u16> {
        let mut page = self.node(FREE_RUNS).next;
        while page != FREE_RUNS {
            let Node {
                run,
                next,
                previous,
                ..
            } = *self.node(page);
            if run < wanted {
                page = next;
                continue;
            }
            self.free_pages -= wanted;
            if run == wanted {
                self.unlink(page);
            } else {
                let rest = page + wanted;
                self.node(page + run - 1).previous = rest;
                let first = self.node(rest);
                first.run = run - wanted;
                (first.next, first.previous) = (next, previous);
                self.node(previous).next = rest;
                self.node(next).previous = rest;
            }
            return Some(page);
        }
        None
    }

    /// Frees pages: joins them with the free run right after and the one right
    /// before, and makes the whole the head of the list.
    #[inline]
    pub(super) fn release(&mut self, page: u16, count: u16) {
        self.free_pages += count;
        let (mut first, mut end) = (page, page + count);
        for inside in page..end {
            let node = self.node(inside);
            (node.kind, node.run) = (Kind::Free, 0);
        }
        if end < self.pages {
            let after = self.node(end);
            if after.kind == Kind::Free {
                let run = std::mem::take(&mut after.run);
                self.unlink(end);
                end += run;
            }
        }
        if page > 0 {
            let before = *self.node(page - 1);
            if before.kind == Kind::Free {
                first = if before.run == 0 {
                    before.previous
                } else {
                    page - 1
                };
                self.unlink(first);
            }
        }
        self.node(end - 1).previous = first;
        self.node(first).run = end - first;
        self.link_first(FREE_RUNS, first);
    }
}
