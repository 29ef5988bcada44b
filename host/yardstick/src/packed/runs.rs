//! Runs of pages. Only header and page records are touched.

use super::layout::{
    get, inside, kind, links, next, previous, put, relink, run, set_previous, unlink, Record, Word,
    FREE_FIRST, FREE_INSIDE, FREE_PAGE, KIND_SHIFT, NEXT_SHIFT, NONE, PREVIOUS, PREVIOUS_SHIFT,
    RUN_SHIFT, TAKEN_FIRST, TAKEN_INSIDE,
};
use crate::Refusal;

/// Takes the pages that hold `size` bytes and answers their offset; 0 is refused.
#[inline]
pub fn alloc_run(header: &mut Word, records: &mut [Record], size: u32) -> Result<u32, Refusal> {
    if size == 0 {
        return Err(Refusal::NothingAsked);
    }
    let wanted = size.div_ceil(4_096) as usize;
    let page = cut_run(header, records, wanted).ok_or(Refusal::NoRoom)?;
    put(
        &mut records[page][1],
        links(TAKEN_FIRST) | (wanted as u64) << RUN_SHIFT,
    );
    records[page + 1..page + wanted].fill(inside(TAKEN_INSIDE));
    Ok((page as u32) << 12)
}

/// Takes pages off the front of the first run on the list that is long enough.
/// The caller writes their links; their maps are 0.
#[inline]
pub fn cut_run(header: &mut Word, records: &mut [Record], wanted: usize) -> Option<usize> {
    let old = get(header);
    let mut head = old & NONE;
    let mut page = head;
    let found = loop {
        let [_, links] = records.get(page as usize)?;
        let links = get(links);
        if run(links) >= wanted {
            break links;
        }
        page = next(links);
    };
    let left = run(found) - wanted;
    if left == 0 {
        unlink(records, &mut head, found);
    } else {
        let rest = page + wanted as u64;
        put(&mut records[rest as usize + left - 1][1], last_links(rest));
        // The same links with a shorter run. It may be the last page itself.
        let shorter = found - ((wanted as u64) << RUN_SHIFT);
        put(&mut records[rest as usize][1], shorter);
        relink(records, &mut head, found, rest, rest);
    }
    let free = old - wanted as u64 * FREE_PAGE;
    put(header, free & !NONE | head);
    Some(page as usize)
}

/// Frees pages: joins them with the free run right after and the one right
/// before, and makes the whole the head of the list.
pub fn release(header: &mut Word, records: &mut [Record], page: usize, count: usize) {
    let old = get(header);
    let mut head = old & NONE;
    let (mut first, mut end) = (page, page + count);
    records[page..end].fill(inside(FREE_INSIDE));

    if let Some([_, after]) = records.get(end) {
        let after = get(after);
        if kind(after) == FREE_FIRST {
            unlink(records, &mut head, after);
            records[end] = inside(FREE_INSIDE);
            end += run(after);
        }
    }
    if page > 0 {
        let mut before = get(&records[page - 1][1]);
        if kind(before) <= FREE_FIRST {
            first = page - 1;
            if kind(before) == FREE_INSIDE {
                records[first] = inside(FREE_INSIDE);
                first = previous(before) as usize;
                before = get(&records[first][1]);
            }
            unlink(records, &mut head, before);
        }
    }

    let length = (end - first) as u64;
    put(&mut records[end - 1][1], last_links(first as u64));
    put(
        &mut records[first][1],
        FREE_FIRST << KIND_SHIFT | length << RUN_SHIFT | head << NEXT_SHIFT | PREVIOUS,
    );
    if head != NONE {
        set_previous(records, head, first as u64);
    }
    let free = old + count as u64 * FREE_PAGE;
    put(header, free & !NONE | first as u64);
}

/// The links of the last page of a free run.
#[inline]
fn last_links(first: u64) -> u64 {
    links(FREE_INSIDE) & !PREVIOUS | first << PREVIOUS_SHIFT
}
