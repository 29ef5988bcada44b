//! Whether a pool's records are sound.
//!
//! One walk over the pages and one over each list: linear in the page count,
//! with counters of fixed size.

use crate::class::{Class, CLASSES};
use crate::layout::{
    bitmap_word_at, word, ClassRecord, Header, Layout, PageNo, PageRecord, CLASS_PAGE, FREE_FIRST,
    FREE_INSIDE, TAKEN_FIRST, TAKEN_INSIDE,
};
use crate::pool::is_full;

/// Whether the slice is a pool whose records are sound.
pub fn validate(bytes: &[u8]) -> bool {
    broken_rule(bytes) == 0
}

/// The number of the first rule of soundness, 1 to 6, that the slice breaks,
/// or 0 when it is sound.
pub fn broken_rule(bytes: &[u8]) -> u8 {
    let Some((layout, header)) = read_header(bytes) else {
        return 1;
    };
    let census = Census::take(bytes, layout);
    let Some(census) = census.filter(|census| !census.stray_link) else {
        return 2;
    };
    if !free_list_is_sound(bytes, layout, header.first, census.free_runs) {
        return 3;
    }
    if census.full_page_linked {
        return 4;
    }
    for class in Class::all() {
        let first = ClassRecord::read(bytes, layout, class).first;
        let open = census.classes[class.index()].open;
        if !class_list_is_sound(bytes, layout, class, first, open) {
            return 4;
        }
    }
    if census.unused_class_page {
        return 5;
    }
    if header.free != census.free_pages {
        return 6;
    }
    for class in Class::all() {
        let record = ClassRecord::read(bytes, layout, class);
        let counted = &census.classes[class.index()];
        if record.used != counted.used || record.total != counted.pages * class.counted_chunks() {
            return 6;
        }
        if let Some(peak) = record.peak {
            if peak.most < record.used || peak.zeros != 0 {
                return 6;
            }
        }
    }
    0
}

/// Layout and header of a slice that obeys rule 1.
pub(crate) fn read_header(bytes: &[u8]) -> Option<(Layout, Header)> {
    let layout = Layout::of(bytes).ok()?;
    let header = Header::read(bytes);
    check(header == Header::new(layout, header.free, header.first))?;
    Some((layout, header))
}

/// Whether the list from `first` holds `length` pages, all of which `belongs`
/// accepts, each leading back to the one before, and then ends.
///
/// No page can come twice: leading back from both places would reach the head
/// from one of them early. So a list as long as there are pages that belong
/// holds each of them.
fn list_is_sound(
    bytes: &[u8],
    layout: Layout,
    first: PageNo,
    length: u32,
    belongs: impl Fn(PageNo, &PageRecord) -> bool,
) -> bool {
    let mut previous = PageNo::NONE;
    let mut page = first;
    for _ in 0..length {
        if page.0 >= layout.pages {
            return false;
        }
        let record = PageRecord::read(bytes, layout, page);
        if record.previous != previous || !belongs(page, &record) {
            return false;
        }
        previous = page;
        page = record.next;
    }
    page == PageNo::NONE
}

fn free_list_is_sound(bytes: &[u8], layout: Layout, first: PageNo, runs: u32) -> bool {
    list_is_sound(bytes, layout, first, runs, |_, record| {
        record.kind == FREE_FIRST
    })
}

fn class_list_is_sound(
    bytes: &[u8],
    layout: Layout,
    class: Class,
    first: PageNo,
    open: u32,
) -> bool {
    list_is_sound(bytes, layout, first, open, |page, record| {
        record.kind == CLASS_PAGE
            && record.class == class.number()
            && !is_full(bytes, layout.bitmap_at(page, class), class)
    })
}

/// What the walk over the pages of one class counted.
#[derive(Clone, Copy, Default)]
pub(crate) struct ClassCount {
    pub pages: u32,
    /// Pages with a free chunk.
    open: u32,
    /// Chunks in callers' hands.
    pub used: u32,
}

/// What one walk over the page records found, in pages that obey rule 2 but for
/// links and zero bits.
#[derive(Default)]
pub(crate) struct Census {
    free_runs: u32,
    pub free_pages: u32,
    pub classes: [ClassCount; CLASSES],
    /// A link or a zero bit breaks rule 2.
    stray_link: bool,
    full_page_linked: bool,
    pub unused_class_page: bool,
}

impl Census {
    /// Walks the pages run by run; `None` when rule 2 is broken elsewhere than
    /// in links and zero bits.
    pub fn take(bytes: &[u8], layout: Layout) -> Option<Census> {
        let mut census = Census::default();
        let mut page = PageNo(0);
        let mut after_free_run = false;
        while page.0 < layout.pages {
            let record = PageRecord::read(bytes, layout, page);
            let length = match record.kind {
                FREE_FIRST if !after_free_run => {
                    census.add_free_run(bytes, layout, page, &record)?
                }
                TAKEN_FIRST => census.add_taken_run(bytes, layout, page, &record)?,
                CLASS_PAGE => census.add_class_page(bytes, layout, page, &record)?,
                // Inside a run that has no first page, a free run that touches
                // another, or no kind at all.
                _ => return None,
            };
            after_free_run = record.kind == FREE_FIRST;
            page = page.plus(length);
        }
        Some(census)
    }

    fn add_free_run(
        &mut self,
        bytes: &[u8],
        layout: Layout,
        page: PageNo,
        record: &PageRecord,
    ) -> Option<u32> {
        let expected = PageRecord {
            run: record.run,
            ..PageRecord::new(FREE_FIRST)
        };
        let inside = PageRecord::new(FREE_INSIDE);
        check(record.unlinked() == expected && fits(layout, page, record.run))?;
        self.stray_link |= record.zeros != 0;
        for index in 1..record.run {
            let is_last = index == record.run - 1;
            let expected = PageRecord {
                previous: if is_last { page } else { PageNo::NONE },
                ..inside
            };
            let record = PageRecord::read(bytes, layout, page.plus(index));
            check(record.unlinked() == inside)?;
            self.stray_link |= record != expected;
        }
        self.free_runs += 1;
        self.free_pages += record.run;
        Some(record.run)
    }

    fn add_taken_run(
        &mut self,
        bytes: &[u8],
        layout: Layout,
        page: PageNo,
        record: &PageRecord,
    ) -> Option<u32> {
        let expected = PageRecord {
            run: record.run,
            ..PageRecord::new(TAKEN_FIRST)
        };
        let inside = PageRecord::new(TAKEN_INSIDE);
        check(record.unlinked() == expected && fits(layout, page, record.run))?;
        self.stray_link |= *record != expected;
        for index in 1..record.run {
            let record = PageRecord::read(bytes, layout, page.plus(index));
            check(record.unlinked() == inside)?;
            self.stray_link |= record != inside;
        }
        Some(record.run)
    }

    fn add_class_page(
        &mut self,
        bytes: &[u8],
        layout: Layout,
        page: PageNo,
        record: &PageRecord,
    ) -> Option<u32> {
        let class = Class::new(record.class)?;
        let expected = PageRecord {
            bitmap: if class.bitmap_in_page() {
                0
            } else {
                record.bitmap & class.full_word()
            },
            class: record.class,
            ..PageRecord::new(CLASS_PAGE)
        };
        let bitmap = layout.bitmap_at(page, class);
        let own = class.own_word();
        check(record.unlinked() == expected && word(bytes, bitmap) & own == own)?;
        self.stray_link |= record.zeros != 0;

        let marked: u32 = (0..class.bitmap_words())
            .map(|index| word(bytes, bitmap_word_at(bitmap, index)).count_ones())
            .sum();
        let linked = record.next != PageNo::NONE || record.previous != PageNo::NONE;
        let count = &mut self.classes[class.index()];
        count.pages += 1;
        count.used += marked - class.own_chunks();
        if marked < class.chunks() {
            count.open += 1;
        } else if linked {
            self.full_page_linked = true;
        }
        if marked == class.own_chunks() {
            self.unused_class_page = true;
        }
        Some(1)
    }
}

/// Whether a run of this length can begin at `page`.
fn fits(layout: Layout, page: PageNo, run: u32) -> bool {
    1 <= run && run <= layout.pages - page.0
}

fn check(holds: bool) -> Option<()> {
    holds.then_some(())
}
