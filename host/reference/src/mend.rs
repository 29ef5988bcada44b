//! Pools whose links or counts were lost: our mender, and the checker of a copy
//! that anybody mended.
//!
//! Header constants, page count, kinds, classes, run lengths and maps tell the
//! live blocks. All else in the records follows from them, but for the order of
//! the lists, asks, failures and peak.

use crate::class::{Class, CLASSES};
use crate::layout::{
    ClassRecord, Header, Layout, PageNo, PageRecord, Peak, CLASS_PAGE, FREE_FIRST,
};
use crate::pool::{is_full, Pool};
use crate::refusal::Refusal;
use crate::validate::{read_header, validate, Census};

/// Whether `mended` is a sound pool with the live blocks that `damaged` shows,
/// and with its page bytes and tail.
///
/// Links, counts, asks, failures and peaks of the damaged one are not looked at.
pub fn check_mended(damaged: &[u8], mended: &[u8]) -> Result<(), Refusal> {
    if damaged.len() != mended.len() || damaged.first() != mended.first() {
        return Err(Refusal::WrongLength);
    }
    let (layout, _) = survey(damaged).ok_or(Refusal::BeyondMending)?;
    if !validate(mended) {
        return Err(Refusal::NotSound);
    }
    // A class page has a live block and no two free runs touch, so pools with
    // the same live blocks have the same kinds, classes, run lengths and maps.
    let same_blocks = (0..layout.pages).map(PageNo).all(|page| {
        let [old, new] = [damaged, mended].map(|bytes| PageRecord::read(bytes, layout, page));
        old.unlinked() == new.unlinked()
    });
    let first_page = layout.page_at(PageNo(0));
    if same_blocks && damaged[first_page..] == mended[first_page..] {
        Ok(())
    } else {
        Err(Refusal::OtherBlocks)
    }
}

/// Makes the target a sound pool with the live blocks that `damaged` shows, and
/// with its page bytes and tail, and answers the page count.
///
/// Lists are in rising page order and counts are made afresh. Asks and failures
/// are kept; a peak is too, unless used is larger. A refusal changes nothing.
pub fn mend(damaged: &[u8], target: &mut [u8]) -> Result<u32, Refusal> {
    if damaged.len() != target.len() {
        return Err(Refusal::WrongLength);
    }
    let (layout, census) = survey(damaged).ok_or(Refusal::BeyondMending)?;
    target.copy_from_slice(damaged);
    let mut pool = Pool {
        bytes: target,
        layout,
    };
    let mut header = Header::new(layout, census.free_pages, PageNo::NONE);
    let mut firsts = [PageNo::NONE; CLASSES];
    // Each page on a list becomes its first, from the last page on.
    for page in (0..layout.pages).rev().map(PageNo) {
        let record = pool.page(page).unlinked();
        pool.set_page(page, record);
        if record.kind == FREE_FIRST {
            pool.push_run(&mut header, page, record.run);
        }
        let class = Class::new(record.class).filter(|_| record.kind == CLASS_PAGE);
        let is_open = |class: &Class| !is_full(damaged, layout.bitmap_at(page, *class), *class);
        if let Some(class) = class.filter(is_open) {
            pool.link_first(&mut firsts[class.index()], page);
        }
    }
    for class in Class::all() {
        let old = ClassRecord::read(damaged, layout, class);
        let count = &census.classes[class.index()];
        let record = ClassRecord {
            first: firsts[class.index()],
            used: count.used,
            total: count.pages * class.counted_chunks(),
            peak: old.peak.map(|peak| Peak {
                most: peak.most.max(count.used),
                zeros: 0,
            }),
            ..old
        };
        pool.set_class(class, record);
    }
    header.write(pool.bytes);
    Ok(layout.pages)
}

/// What the parts that tell live blocks show, where they obey rules 1, 2 and 5.
fn survey(bytes: &[u8]) -> Option<(Layout, Census)> {
    let (layout, _) = read_header(bytes)?;
    let census = Census::take(bytes, layout)?;
    (!census.unused_class_page).then_some((layout, census))
}
