//! What a pool must show, predicted from calls and answers alone.
//!
//! [`LiveSet`] holds the page count and the live blocks, fed only by the
//! arguments and answers of calls. From it alone follow the expected [`View`]
//! and the ruling on any next call. [`shown`] reads the same view out of a
//! pool's records, so that tests can compare the two. The view is that of both
//! editions; [`Peaks`] follows what edition 2 shows beside it.

use std::collections::BTreeMap;
use std::fmt;

use crate::class::{need, Class, Need, CLASSES};
use crate::layout::{
    bitmap_word_at, word, ClassRecord, Layout, Offset, PageNo, PageRecord, CLASS_PAGE, FREE_FIRST,
    PAGE_SIZE, TAKEN_FIRST,
};
use crate::refusal::Refusal;
use crate::validate::validate;

/// Words in the longest bitmap.
const BITMAP_WORDS: usize = 8;

/// The marks of a page's chunks: chunk 0 in the top bit of the first word,
/// words past the class's bitmap 0.
pub type Bitmap = [u64; BITMAP_WORDS];

/// A call on a pool.
#[derive(Clone, Copy, Debug, PartialEq, Eq)]
pub enum Call {
    /// Take a block of at least this many bytes.
    Alloc(u32),
    /// Give back the block at this offset.
    Free(u32),
}

/// A block in a caller's hands.
#[derive(Clone, Copy, Debug, PartialEq, Eq)]
pub enum Block {
    /// A chunk of a class.
    Chunk(Class),
    /// A run of this many pages.
    Run(u32),
}

impl Block {
    /// How many bytes the block spans.
    pub fn bytes(self) -> u64 {
        match self {
            Block::Chunk(class) => u64::from(class.chunk_size()),
            Block::Run(pages) => u64::from(pages) * u64::from(PAGE_SIZE),
        }
    }
}

/// The five things a pool shows, for every class and page.
#[derive(Clone, Debug, PartialEq, Eq)]
pub struct View {
    /// Free runs in page order: first page and length.
    pub free_runs: Vec<(u32, u32)>,
    /// The class of each page, where it is a class page.
    pub classes: Vec<Option<Class>>,
    /// The bitmap of each page, where it is a class page.
    pub bitmaps: Vec<Option<Bitmap>>,
    /// Chunks in callers' hands, by class.
    pub used: [u32; CLASSES],
    /// Chunks in class pages, by class.
    pub total: [u32; CLASSES],
}

impl View {
    fn is_free(&self, page: u32) -> bool {
        self.free_runs
            .iter()
            .any(|&(first, length)| first <= page && page < first + length)
    }

    /// Whether a page of this class has a chunk to give.
    fn has_free_chunk(&self, class: Class) -> bool {
        self.classes
            .iter()
            .zip(&self.bitmaps)
            .filter_map(|(of, bitmap)| bitmap.filter(|_| *of == Some(class)))
            .any(|bitmap| bitmap.iter().map(|word| word.count_ones()).sum::<u32>() < class.chunks())
    }
}

/// An answer that no correct pool gives.
#[derive(Clone, Copy, Debug, PartialEq, Eq)]
pub enum Contradiction {
    /// A block was granted where nothing was asked for.
    Nothing,
    /// The granted block reaches past the last page.
    Outside,
    /// The granted block overlaps the live block at this offset.
    Overlap(u32),
    /// A free was granted where no live block begins.
    NotLive,
    /// A granted free told so many bytes, and the block has others.
    Bytes(u32),
}

impl fmt::Display for Contradiction {
    fn fmt(&self, f: &mut fmt::Formatter<'_>) -> fmt::Result {
        match self {
            Contradiction::Nothing => f.write_str("granted, and nothing was asked for"),
            Contradiction::Outside => f.write_str("granted block reaches past the last page"),
            Contradiction::Overlap(offset) => {
                write!(f, "granted block overlaps the live block at {offset}")
            }
            Contradiction::NotLive => f.write_str("free granted where no live block begins"),
            Contradiction::Bytes(bytes) => {
                write!(f, "the freed block has not {bytes} bytes")
            }
        }
    }
}

impl std::error::Error for Contradiction {}

/// The live blocks, known from calls and answers alone.
#[derive(Clone, Debug, PartialEq, Eq)]
pub struct LiveSet {
    pages: u32,
    blocks: BTreeMap<u32, Block>,
}

impl LiveSet {
    /// The live set of a pool just formatted to `pages` pages: no blocks.
    pub fn new(pages: u32) -> LiveSet {
        LiveSet {
            pages,
            blocks: BTreeMap::new(),
        }
    }

    /// The live blocks by offset.
    pub fn blocks(&self) -> &BTreeMap<u32, Block> {
        &self.blocks
    }

    /// The live chunks of each class.
    pub fn used(&self) -> [u32; CLASSES] {
        let mut used = [0; CLASSES];
        for block in self.blocks.values() {
            if let Block::Chunk(class) = block {
                used[class.index()] += 1;
            }
        }
        used
    }

    /// Notes the answer to `Alloc(size)`. A contradiction is not entered.
    pub fn record_alloc(
        &mut self,
        size: u32,
        answer: Result<u32, Refusal>,
    ) -> Result<(), Contradiction> {
        let Ok(offset) = answer else {
            return Ok(());
        };
        let block = match need(size).map_err(|_| Contradiction::Nothing)? {
            Need::Chunk(class) => Block::Chunk(class),
            Need::Run(pages) => Block::Run(pages),
        };
        let last = u32::try_from(u64::from(offset) + block.bytes() - 1)
            .ok()
            .filter(|&last| Offset(last).page().0 < self.pages)
            .ok_or(Contradiction::Outside)?;
        // Live blocks are apart, so only the last that begins before the end
        // of the new one can reach into it.
        if let Some((&start, live)) = self.blocks.range(..=last).next_back() {
            if u64::from(start) + live.bytes() > u64::from(offset) {
                return Err(Contradiction::Overlap(start));
            }
        }
        self.blocks.insert(offset, block);
        Ok(())
    }

    /// Notes the answer to `Free(offset)`. A contradiction is not entered.
    pub fn record_free(
        &mut self,
        offset: u32,
        answer: Result<u32, Refusal>,
    ) -> Result<(), Contradiction> {
        let Ok(bytes) = answer else {
            return Ok(());
        };
        let block = self.blocks.get(&offset).ok_or(Contradiction::NotLive)?;
        if block.bytes() != u64::from(bytes) {
            return Err(Contradiction::Bytes(bytes));
        }
        self.blocks.remove(&offset);
        Ok(())
    }

    /// What a pool with these live blocks must show.
    pub fn expected(&self) -> View {
        let pages = self.pages as usize;
        let mut classes = vec![None; pages];
        let mut bitmaps = vec![None; pages];
        let mut taken = vec![false; pages];
        for (&offset, &block) in &self.blocks {
            let offset = Offset(offset);
            let page = offset.page().0 as usize;
            match block {
                Block::Chunk(class) => {
                    taken[page] = true;
                    classes[page] = Some(class);
                    let bitmap = bitmaps[page].get_or_insert_with(|| own_bitmap(class));
                    // A block off the boundaries begins at no chunk.
                    if let Some(chunk) = chunk_at(class, offset.within()) {
                        *mark_word(bitmap, chunk) |= mark(chunk);
                    }
                }
                Block::Run(length) => taken[page..page + length as usize].fill(true),
            }
        }
        let mut free_runs: Vec<(u32, u32)> = Vec::new();
        for page in (0..self.pages).filter(|&page| !taken[page as usize]) {
            match free_runs.last_mut() {
                Some((first, length)) if *first + *length == page => *length += 1,
                _ => free_runs.push((page, 1)),
            }
        }
        let mut total = [0; CLASSES];
        for class in classes.iter().flatten() {
            total[class.index()] += class.counted_chunks();
        }
        View {
            free_runs,
            classes,
            bitmaps,
            used: self.used(),
            total,
        }
    }

    /// Whether the next call is granted, or how it is refused.
    pub fn ruling(&self, call: Call) -> Result<(), Refusal> {
        let view = self.expected();
        match call {
            Call::Alloc(size) => {
                let room = match need(size)? {
                    Need::Chunk(class) => view.has_free_chunk(class) || !view.free_runs.is_empty(),
                    Need::Run(wanted) => view.free_runs.iter().any(|run| run.1 >= wanted),
                };
                room.then_some(()).ok_or(Refusal::NoRoom)
            }
            Call::Free(offset) => self.free_ruling(&view, Offset(offset)),
        }
    }

    fn free_ruling(&self, view: &View, offset: Offset) -> Result<(), Refusal> {
        let page = offset.page().0;
        if page >= self.pages {
            return Err(Refusal::Outside);
        }
        if view.is_free(page) {
            return Err(Refusal::NotTaken);
        }
        if let Some(class) = view.classes[page as usize] {
            let chunk = chunk_at(class, offset.within())
                .filter(|&chunk| chunk >= class.own_chunks())
                .ok_or(Refusal::NotAStart)?;
            let mut bitmap = view.bitmaps[page as usize].unwrap_or_default();
            if *mark_word(&mut bitmap, chunk) & mark(chunk) == 0 {
                return Err(Refusal::NotTaken);
            }
            return Ok(());
        }
        // The page lies in a taken run, which begins only at its block.
        if self.blocks.contains_key(&offset.0) {
            Ok(())
        } else {
            Err(Refusal::NotAStart)
        }
    }
}

/// The largest used of each class after any call so far, known from the live
/// blocks after each of them.
#[derive(Clone, Copy, Debug, PartialEq, Eq)]
pub struct Peaks([u32; CLASSES]);

impl Peaks {
    /// The history that starts here: after format or a conversion with the
    /// chunks that are live, on any other sound pool with what it shows.
    pub fn new(start: [u32; CLASSES]) -> Peaks {
        Peaks(start)
    }

    /// Notes the live blocks after a call, granted or refused.
    pub fn note(&mut self, live: &LiveSet) {
        for (peak, used) in self.0.iter_mut().zip(live.used()) {
            *peak = used.max(*peak);
        }
    }

    /// The peaks by class.
    pub fn by_class(self) -> [u32; CLASSES] {
        self.0
    }
}

/// The chunk that begins at this place in a page of the class, if one does.
fn chunk_at(class: Class, within: u32) -> Option<u32> {
    let chunk = within / class.chunk_size();
    (chunk * class.chunk_size() == within).then_some(chunk)
}

fn mark_word(bitmap: &mut Bitmap, chunk: u32) -> &mut u64 {
    &mut bitmap[(chunk / u64::BITS) as usize]
}

fn mark(chunk: u32) -> u64 {
    1 << (u64::BITS - 1 - chunk % u64::BITS)
}

/// The bitmap of a page of the class with only the bitmap's own chunks marked.
fn own_bitmap(class: Class) -> Bitmap {
    let mut bitmap = Bitmap::default();
    for chunk in 0..class.own_chunks() {
        *mark_word(&mut bitmap, chunk) |= mark(chunk);
    }
    bitmap
}

/// The view that a pool's records show, read as they stand, or `None` when the
/// slice's edition and length hold no pool.
pub fn shown(bytes: &[u8]) -> Option<View> {
    let layout = Layout::of(bytes).ok()?;
    let mut view = View {
        free_runs: Vec::new(),
        classes: Vec::new(),
        bitmaps: Vec::new(),
        used: [0; CLASSES],
        total: [0; CLASSES],
    };
    for page in 0..layout.pages {
        let record = PageRecord::read(bytes, layout, PageNo(page));
        if record.kind == FREE_FIRST {
            view.free_runs.push((page, record.run));
        }
        let class = Class::new(record.class).filter(|_| record.kind == CLASS_PAGE);
        view.classes.push(class);
        view.bitmaps
            .push(class.map(|class| read_bitmap(bytes, layout, PageNo(page), class)));
    }
    for class in Class::all() {
        let record = ClassRecord::read(bytes, layout, class);
        view.used[class.index()] = record.used;
        view.total[class.index()] = record.total;
    }
    Some(view)
}

/// The peaks that a pool's records show, by class, read as they stand, or `None`
/// where they show none: in edition 1, or in no pool.
pub fn peaks(bytes: &[u8]) -> Option<[u32; CLASSES]> {
    let layout = Layout::of(bytes).ok()?;
    let mut peaks = [0; CLASSES];
    for class in Class::all() {
        let record = ClassRecord::read(bytes, layout, class);
        peaks[class.index()] = record.peak?.most;
    }
    Some(peaks)
}

/// The live blocks of a sound pool read by itself, by offset, or `None` when
/// it is not sound.
pub fn live_blocks(bytes: &[u8]) -> Option<BTreeMap<u32, Block>> {
    let layout = Layout::of(bytes).ok()?;
    if !validate(bytes) {
        return None;
    }
    let mut blocks = BTreeMap::new();
    for page in (0..layout.pages).map(PageNo) {
        let record = PageRecord::read(bytes, layout, page);
        match (record.kind, Class::new(record.class)) {
            (TAKEN_FIRST, _) => {
                blocks.insert(page.offset(0).0, Block::Run(record.run));
            }
            (CLASS_PAGE, Some(class)) => {
                let mut bitmap = read_bitmap(bytes, layout, page, class);
                for chunk in class.own_chunks()..class.chunks() {
                    if *mark_word(&mut bitmap, chunk) & mark(chunk) != 0 {
                        let offset = page.offset(chunk * class.chunk_size());
                        blocks.insert(offset.0, Block::Chunk(class));
                    }
                }
            }
            _ => {}
        }
    }
    Some(blocks)
}

fn read_bitmap(bytes: &[u8], layout: Layout, page: PageNo, class: Class) -> Bitmap {
    let at = layout.bitmap_at(page, class);
    let mut bitmap = Bitmap::default();
    for (index, place) in bitmap.iter_mut().enumerate().take(class.bitmap_words()) {
        *place = word(bytes, bitmap_word_at(at, index));
    }
    bitmap
}
