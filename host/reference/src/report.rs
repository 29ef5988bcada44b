//! The report program: what the image of a pool holds, on paper.

use crate::class::Class;
use crate::layout::{
    ClassRecord, Edition, Layout, PageNo, PageRecord, CLASS_PAGE, FREE_FIRST, TAKEN_FIRST,
};
use crate::refusal::Refusal;
use crate::validate::broken_rule;
use crate::view::{live_blocks, Block};

/// An image with room for thirteen pages or more is too long.
const TOO_LONG: usize = 53_608;

/// Reports on an image and answers the whole printout.
pub fn report(image: &[u8]) -> Vec<u8> {
    if image.len() >= TOO_LONG {
        return format!("no {}\n", Refusal::TooLong.number()).into_bytes();
    }
    // An image of another edition breaks rule 1 here, whatever follows in it.
    let layout = Layout::of(image).ok();
    let Some(layout) = layout.filter(|layout| layout.edition == Edition::One) else {
        return b"1\n".to_vec();
    };
    match broken_rule(image) {
        0 => lines(image, layout).concat().into_bytes(),
        rule => format!("{rule}\n").into_bytes(),
    }
}

/// The lines of a sound image.
fn lines(image: &[u8], layout: Layout) -> Vec<String> {
    let pages = layout.pages;
    let records: Vec<PageRecord> = (0..pages)
        .map(|page| PageRecord::read(image, layout, PageNo(page)))
        .collect();
    let mut lines = vec![format!("pool {pages}\n")];
    lines.extend(Class::all().map(|class| {
        let ClassRecord {
            used,
            total,
            reqs,
            fails,
            ..
        } = ClassRecord::read(image, layout, class);
        let pages = records
            .iter()
            .filter(|record| record.kind == CLASS_PAGE && record.class == class.number())
            .count();
        let size = class.chunk_size();
        format!(
            "class {size} pages {pages} used {used} total {total} asks {reqs} failures {fails}\n"
        )
    }));
    for (first, record) in records.iter().enumerate() {
        let length = record.run;
        match record.kind {
            FREE_FIRST => lines.push(format!("run free {first} {length}\n")),
            TAKEN_FIRST => lines.push(format!("run taken {first} {length}\n")),
            _ => {}
        }
    }
    for (offset, block) in live_blocks(image).unwrap_or_default() {
        lines.push(match block {
            Block::Chunk(class) => format!("block {offset} class {}\n", class.chunk_size()),
            Block::Run(pages) => format!("block {offset} pages {pages}\n"),
        });
    }
    lines
}
