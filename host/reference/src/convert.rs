//! From edition 1 to edition 2.

use crate::class::Class;
use crate::layout::{ClassRecord, Edition, Header, Layout, PageNo, PageRecord};
use crate::refusal::Refusal;
use crate::validate::validate;

/// Makes the target a pool of edition 2 with all that the source, a sound pool
/// of edition 1, holds, and answers the page count. The history for peak starts
/// with the chunks used now.
///
/// The target's tail stays; a refusal changes nothing.
pub fn convert(source: &[u8], target: &mut [u8]) -> Result<u32, Refusal> {
    let from = sound_edition_1(source).ok_or(Refusal::NotSound)?;
    let to = Layout {
        edition: Edition::Two,
        ..from
    };
    if Layout::new(2, target.len()) != Ok(to) {
        return Err(Refusal::WrongLength);
    }

    let edition = to.edition.number();
    Header {
        edition,
        ..Header::read(source)
    }
    .write(target);
    for class in Class::all() {
        let record = ClassRecord::read(source, from, class);
        record.in_edition(to.edition).write(target, to, class);
    }
    for page in (0..from.pages).map(PageNo) {
        PageRecord::read(source, from, page).write(target, to, page);
    }
    let (first, end) = (PageNo(0), PageNo(from.pages));
    let pages = &source[from.page_at(first)..from.page_at(end)];
    target[to.page_at(first)..to.page_at(end)].copy_from_slice(pages);
    Ok(from.pages)
}

/// The layout of a slice that is a sound pool of edition 1.
fn sound_edition_1(bytes: &[u8]) -> Option<Layout> {
    let layout = Layout::of(bytes).ok()?;
    (layout.edition == Edition::One && validate(bytes)).then_some(layout)
}
