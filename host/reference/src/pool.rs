//! Format, alloc and free.
//!
//! No call allocates or copies the pool, and none panics, whatever the bytes,
//! the length, the size or the offset. Inside pages only marks are written.

use crate::class::{need, Class, Need};
use crate::layout::{
    bitmap_word_at, set_next, set_previous, set_word, word, ClassRecord, Header, Layout, Offset,
    PageNo, PageRecord, CLASS_PAGE, FREE_FIRST, FREE_INSIDE, PAGE_SIZE, TAKEN_FIRST, TAKEN_INSIDE,
};
use crate::refusal::Refusal;
use crate::validate::validate;

/// The mark of chunk 0 in a bitmap word.
const FIRST_MARK: u64 = 1 << 63;

/// Makes the slice a pool of this edition with one free run, and answers its
/// page count.
///
/// Page bytes and the tail stay as they are.
pub fn format(bytes: &mut [u8], edition: u8) -> Result<u32, Refusal> {
    let layout = Layout::new(edition, bytes.len())?;
    let pages = layout.pages;
    for class in Class::all() {
        ClassRecord::new(layout.edition).write(bytes, layout, class);
    }
    for page in 0..pages {
        PageRecord::new(FREE_INSIDE).write(bytes, layout, PageNo(page));
    }
    let mut header = Header::new(layout, pages, PageNo::NONE);
    let mut pool = Pool { bytes, layout };
    pool.push_run(&mut header, PageNo(0), pages);
    header.write(bytes);
    Ok(pages)
}

/// Takes a block of at least `size` bytes and answers its offset.
pub fn alloc(bytes: &mut [u8], size: u32) -> Result<u32, Refusal> {
    if !validate(bytes) {
        return Err(Refusal::NotSound);
    }
    alloc_sound(bytes, size)
}

/// [`alloc`] without the validation, for a pool known to be sound.
///
/// On any other bytes the answer and what becomes of them are unspecified, but
/// the call still ends without a panic.
pub fn alloc_sound(bytes: &mut [u8], size: u32) -> Result<u32, Refusal> {
    let mut pool = Pool::open(bytes)?;
    let offset = match need(size)? {
        Need::Chunk(class) => pool.alloc_chunk(class),
        Need::Run(wanted) => pool.alloc_run(wanted),
    }?;
    Ok(offset.0)
}

/// Gives back the block that begins at `offset`, and answers the bytes
/// released.
pub fn free(bytes: &mut [u8], offset: u32) -> Result<u32, Refusal> {
    if !validate(bytes) {
        return Err(Refusal::NotSound);
    }
    free_sound(bytes, offset)
}

/// [`free`] without the validation, for a pool known to be sound.
///
/// On any other bytes the answer and what becomes of them are unspecified, but
/// the call still ends without a panic.
pub fn free_sound(bytes: &mut [u8], offset: u32) -> Result<u32, Refusal> {
    let mut pool = Pool::open(bytes)?;
    let offset = Offset(offset);
    let page = offset.page();
    if page.0 >= pool.layout.pages {
        return Err(Refusal::Outside);
    }
    let record = pool.page(page);
    match record.kind {
        FREE_INSIDE | FREE_FIRST => Err(Refusal::NotTaken),
        CLASS_PAGE => pool.free_chunk(page, record.class, offset.within()),
        TAKEN_FIRST if offset.within() == 0 => {
            pool.release(page, record.run);
            Ok(record.run * PAGE_SIZE)
        }
        _ => Err(Refusal::NotAStart),
    }
}

/// Whether every chunk in the bitmap that begins at `bitmap` is marked.
pub(crate) fn is_full(bytes: &[u8], bitmap: usize, class: Class) -> bool {
    (0..class.bitmap_words())
        .all(|index| word(bytes, bitmap_word_at(bitmap, index)) == class.full_word())
}

/// Whether only the bitmap's own chunks are marked in it.
fn is_unused(bytes: &[u8], bitmap: usize, class: Class) -> bool {
    word(bytes, bitmap) == class.own_word()
        && (1..class.bitmap_words()).all(|index| word(bytes, bitmap_word_at(bitmap, index)) == 0)
}

/// A pool whose edition and length have been seen to hold pages.
pub(crate) struct Pool<'a> {
    pub bytes: &'a mut [u8],
    pub layout: Layout,
}

impl Pool<'_> {
    fn open(bytes: &mut [u8]) -> Result<Pool<'_>, Refusal> {
        match Layout::of(bytes) {
            Ok(layout) => Ok(Pool { bytes, layout }),
            Err(_) => Err(Refusal::NotSound),
        }
    }

    fn class(&self, class: Class) -> ClassRecord {
        ClassRecord::read(self.bytes, self.layout, class)
    }

    pub fn set_class(&mut self, class: Class, record: ClassRecord) {
        record.write(self.bytes, self.layout, class);
    }

    pub fn page(&self, page: PageNo) -> PageRecord {
        PageRecord::read(self.bytes, self.layout, page)
    }

    pub fn set_page(&mut self, page: PageNo, record: PageRecord) {
        record.write(self.bytes, self.layout, page);
    }

    fn set_next(&mut self, page: PageNo, next: PageNo) {
        set_next(self.bytes, self.layout, page, next);
    }

    fn set_previous(&mut self, page: PageNo, previous: PageNo) {
        set_previous(self.bytes, self.layout, page, previous);
    }

    fn alloc_chunk(&mut self, class: Class) -> Result<Offset, Refusal> {
        let mut record = self.class(class);
        record.reqs = record.reqs.saturating_add(1);
        let answer = if record.first == PageNo::NONE {
            self.cut_page(class, &mut record)
        } else {
            self.take_chunk(class, &mut record)
        };
        self.set_class(class, record);
        answer
    }

    /// Takes the lowest free chunk of the first page on the class list.
    fn take_chunk(&mut self, class: Class, record: &mut ClassRecord) -> Result<Offset, Refusal> {
        let page = record.first;
        let bitmap = self.layout.bitmap_at(page, class);
        for index in 0..class.bitmap_words() {
            let at = bitmap_word_at(bitmap, index);
            let marks = word(self.bytes, at);
            let free = !marks & class.full_word();
            if free == 0 {
                continue;
            }
            let bit = free.leading_zeros();
            set_word(self.bytes, at, marks | FIRST_MARK >> bit);
            record.count_used();
            if is_full(self.bytes, bitmap, class) {
                self.unlink(&mut record.first, page);
            }
            let chunk = index as u32 * u64::BITS + bit;
            return Ok(page.offset(chunk << class.shift()));
        }
        // Only a damaged pool lists a full page.
        Err(Refusal::NotSound)
    }

    /// Cuts a free page into chunks for a class with an empty list.
    fn cut_page(&mut self, class: Class, record: &mut ClassRecord) -> Result<Offset, Refusal> {
        let Some(page) = self.cut_run(1) else {
            record.fails = record.fails.saturating_add(1);
            return Err(Refusal::NoRoom);
        };
        let page_record = PageRecord {
            class: class.number(),
            ..PageRecord::new(CLASS_PAGE)
        };
        self.set_page(page, page_record);
        // The bitmap comes second: the larger classes keep it in the record.
        let bitmap = self.layout.bitmap_at(page, class);
        let chunk = class.own_chunks();
        set_word(self.bytes, bitmap, class.own_word() | FIRST_MARK >> chunk);
        for index in 1..class.bitmap_words() {
            set_word(self.bytes, bitmap_word_at(bitmap, index), 0);
        }
        record.first = page;
        record.count_used();
        record.total += class.counted_chunks();
        Ok(page.offset(chunk << class.shift()))
    }

    fn alloc_run(&mut self, wanted: u32) -> Result<Offset, Refusal> {
        let page = self.cut_run(wanted).ok_or(Refusal::NoRoom)?;
        let first = PageRecord {
            run: wanted,
            ..PageRecord::new(TAKEN_FIRST)
        };
        self.set_page(page, first);
        for index in 1..wanted {
            self.set_page(page.plus(index), PageRecord::new(TAKEN_INSIDE));
        }
        Ok(page.offset(0))
    }

    /// Takes pages off the front of the first run on the list that is long
    /// enough. The caller writes their records.
    fn cut_run(&mut self, wanted: u32) -> Option<PageNo> {
        let mut header = Header::read(self.bytes);
        let mut page = header.first;
        // A sound list ends within as many steps as there are pages.
        for _ in 0..self.layout.pages {
            if page == PageNo::NONE {
                return None;
            }
            let run = self.page(page);
            if run.run < wanted {
                page = run.next;
                continue;
            }
            if run.run == wanted {
                self.unlink(&mut header.first, page);
            } else {
                let rest = page.plus(wanted);
                self.write_run(rest, run.run - wanted, run.next, run.previous);
                self.relink(&mut header.first, &run, rest, rest);
            }
            header.free = header.free.wrapping_sub(wanted);
            header.write(self.bytes);
            return Some(page);
        }
        None
    }

    fn free_chunk(&mut self, page: PageNo, class: u32, within: u32) -> Result<u32, Refusal> {
        let class = Class::new(class).ok_or(Refusal::NotSound)?;
        let chunk = within >> class.shift();
        if within != chunk << class.shift() || chunk < class.own_chunks() {
            return Err(Refusal::NotAStart);
        }
        let bitmap = self.layout.bitmap_at(page, class);
        let at = bitmap_word_at(bitmap, (chunk / u64::BITS) as usize);
        let mark = FIRST_MARK >> (chunk % u64::BITS);
        let marks = word(self.bytes, at);
        if marks & mark == 0 {
            return Err(Refusal::NotTaken);
        }
        let mut record = self.class(class);
        if is_full(self.bytes, bitmap, class) {
            self.link_first(&mut record.first, page);
        }
        set_word(self.bytes, at, marks & !mark);
        record.used = record.used.wrapping_sub(1);
        let unused = is_unused(self.bytes, bitmap, class);
        if unused {
            self.unlink(&mut record.first, page);
            record.total = record.total.wrapping_sub(class.counted_chunks());
        }
        self.set_class(class, record);
        if unused {
            self.release(page, 1);
        }
        Ok(class.chunk_size())
    }

    /// Frees `length` pages: joins them with the free run right after and the
    /// one right before, and makes the whole the head of the free-run list.
    fn release(&mut self, page: PageNo, length: u32) {
        let mut header = Header::read(self.bytes);
        let inside = PageRecord::new(FREE_INSIDE);
        for index in 0..length {
            self.set_page(page.plus(index), inside);
        }
        let mut first = page;
        let mut run = length;

        let after = page.plus(length);
        if after.0 < self.layout.pages {
            let record = self.page(after);
            if record.kind == FREE_FIRST {
                self.unlink(&mut header.first, after);
                self.set_page(after, inside);
                run += record.run;
            }
        }

        if page.0 > 0 {
            let before = PageNo(page.0 - 1);
            let record = self.page(before);
            let start = match record.kind {
                FREE_FIRST => Some(before),
                FREE_INSIDE => Some(record.previous),
                _ => None,
            };
            if let Some(start) = start {
                run += self.page(start).run;
                self.unlink(&mut header.first, start);
                // No longer the last page of its run, so it points nowhere.
                self.set_page(before, inside);
                first = start;
            }
        }

        header.free += length;
        self.push_run(&mut header, first, run);
        header.write(self.bytes);
    }

    /// Writes a free run's records and puts it at the head of the list. The
    /// pages after its first already stand as inside a free run.
    pub fn push_run(&mut self, header: &mut Header, first: PageNo, length: u32) {
        self.write_run(first, length, PageNo::NONE, PageNo::NONE);
        self.link_first(&mut header.first, first);
    }

    /// Writes the first page's record of a free run, and in its last page the
    /// way back to the first.
    fn write_run(&mut self, first: PageNo, length: u32, next: PageNo, previous: PageNo) {
        let record = PageRecord {
            run: length,
            next,
            previous,
            ..PageRecord::new(FREE_FIRST)
        };
        self.set_page(first, record);
        if length > 1 {
            self.set_previous(first.plus(length - 1), first);
        }
    }

    /// Puts a page at the head of a list.
    pub fn link_first(&mut self, head: &mut PageNo, page: PageNo) {
        if *head != PageNo::NONE {
            self.set_previous(*head, page);
        }
        self.set_next(page, *head);
        self.set_previous(page, PageNo::NONE);
        *head = page;
    }

    /// Takes a page off a list and clears its links.
    fn unlink(&mut self, head: &mut PageNo, page: PageNo) {
        let record = self.page(page);
        self.relink(head, &record, record.next, record.previous);
        self.set_next(page, PageNo::NONE);
        self.set_previous(page, PageNo::NONE);
    }

    /// Lets the page before `record` lead on to `forward`, and the page after
    /// it lead back to `back`.
    fn relink(&mut self, head: &mut PageNo, record: &PageRecord, forward: PageNo, back: PageNo) {
        if record.previous == PageNo::NONE {
            *head = forward;
        } else {
            self.set_next(record.previous, forward);
        }
        if record.next != PageNo::NONE {
            self.set_previous(record.next, back);
        }
    }
}
