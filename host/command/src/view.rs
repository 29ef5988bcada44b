//! What a sound pool holds, told by the proved calls.
//!
//! A batch of frees, on a copy, at every offset where a block may begin, is
//! granted exactly where one does, and answers its bytes. The rest follows: a
//! page with chunks in use is a class page, since each has one (SPEC 3.5), what
//! no block lies in is free, and free pages side by side are one run (SPEC 3.2).

use danumrikal::{Answer, Edition, Offset, Pool, Refusal, Request, CLASSES, PAGE};

use crate::class;

/// Blocks begin at multiples of so many bytes.
const STEP: usize = 8;

/// A live block.
#[derive(Clone, Copy, Debug, PartialEq, Eq)]
pub struct Block {
    /// Where it begins, from the first page.
    pub offset: u32,
    /// How long it is.
    pub extent: Extent,
}

/// How long a block is.
#[derive(Clone, Copy, Debug, PartialEq, Eq)]
pub enum Extent {
    /// A chunk of this class, 0 to 8.
    Chunk(usize),
    /// A run of so many pages.
    Pages(usize),
}

/// Pages side by side that are one thing.
#[derive(Clone, Copy, Debug, PartialEq, Eq)]
pub struct Span {
    /// Its first page.
    pub first: usize,
    /// Its pages.
    pub length: usize,
    /// What it is.
    pub kind: Kind,
}

/// What a span is.
#[derive(Clone, Copy, Debug, PartialEq, Eq)]
pub enum Kind {
    /// A free run.
    Free,
    /// A taken run, one block.
    Taken,
    /// A page cut into chunks.
    Chunks {
        /// Their class, 0 to 8.
        class: usize,
        /// How many are in callers' hands.
        used: usize,
    },
    /// A page of which the records say nothing that can be: in broken pools.
    Odd,
}

/// How many pages a pool holds by its edition and length; `None` for none.
pub fn page_count(bytes: &[u8]) -> Option<usize> {
    let edition = Edition::of(bytes)?;
    let page = edition.length(1) - edition.length(0);
    let pages = bytes.len().checked_sub(edition.length(0))? / page;
    (pages > 0).then_some(pages)
}

/// The live blocks of a pool, by rising offset.
///
/// # Errors
///
/// [`Refusal::NotSound`]: nobody can say what such a pool holds.
pub fn live_blocks(bytes: &[u8]) -> Result<Vec<Block>, Refusal> {
    let pages = page_count(bytes).unwrap_or(0);
    let offsets = || (0..pages * PAGE).step_by(STEP).map(|offset| offset as u32);
    let requests: Vec<_> = offsets().map(|at| Request::free(Offset(at))).collect();
    let mut answers = vec![Answer::default(); requests.len()];
    Pool::new(&mut bytes.to_vec()).batch(&requests, &mut answers)?;
    let granted = offsets().zip(answers).filter_map(|(offset, answer)| {
        let bytes = answer.value().ok()? as usize;
        let extent = match class::with_chunk(bytes) {
            Some(class) => Extent::Chunk(class),
            None => Extent::Pages(bytes / PAGE),
        };
        Some(Block { offset, extent })
    });
    Ok(granted.collect())
}

/// The spans of a pool of so many pages with these live blocks, by rising page.
pub fn spans(pages: usize, blocks: &[Block]) -> Vec<Span> {
    let mut spans: Vec<Span> = Vec::new();
    for block in blocks {
        let first = block.offset as usize / PAGE;
        match (block.extent, spans.last_mut()) {
            (Extent::Chunk(_), Some(last)) if last.first == first => last.take_chunk(),
            (Extent::Chunk(class), _) => {
                push(&mut spans, first, 1, Kind::Chunks { class, used: 1 });
            }
            (Extent::Pages(length), _) => push(&mut spans, first, length, Kind::Taken),
        }
    }
    push(&mut spans, pages, 0, Kind::Free);
    spans.retain(|span| span.length > 0);
    spans
}

/// Adds a span, and a free run before it where pages are left between.
fn push(spans: &mut Vec<Span>, first: usize, length: usize, kind: Kind) {
    let end = spans.last().map_or(0, |last| last.first + last.length);
    spans.push(Span {
        first: end,
        length: first - end,
        kind: Kind::Free,
    });
    spans.push(Span {
        first,
        length,
        kind,
    });
}

impl Span {
    fn take_chunk(&mut self) {
        if let Kind::Chunks { used, .. } = &mut self.kind {
            *used += 1;
        }
    }
}

/// How many pages and chunks a kind of span has in all.
#[derive(Clone, Copy, Debug, Default, PartialEq, Eq)]
pub struct Sum {
    /// Spans.
    pub spans: usize,
    /// Their pages.
    pub pages: usize,
    /// Pages of the longest.
    pub longest: usize,
    /// Chunks in callers' hands.
    pub used: usize,
}

impl Sum {
    fn add(&mut self, span: &Span, used: usize) {
        self.spans += 1;
        self.pages += span.length;
        self.longest = self.longest.max(span.length);
        self.used += used;
    }
}

/// The sums of all spans.
#[derive(Clone, Copy, Debug, Default, PartialEq, Eq)]
pub struct Sums {
    /// Free runs.
    pub free: Sum,
    /// Taken runs.
    pub taken: Sum,
    /// The pages of each class.
    pub classes: [Sum; CLASSES],
    /// Pages that are nothing.
    pub odd: Sum,
}

impl Sums {
    /// Of these spans.
    pub fn of(spans: &[Span]) -> Sums {
        let mut sums = Sums::default();
        for span in spans {
            match span.kind {
                Kind::Free => sums.free.add(span, 0),
                Kind::Taken => sums.taken.add(span, 0),
                Kind::Chunks { class, used } => sums.classes[class].add(span, used),
                Kind::Odd => sums.odd.add(span, 0),
            }
        }
        sums
    }
}
