//! The nine chunk sizes, and which of them serves a request.

use crate::layout::{MIN_SHIFT, PAGE_SHIFT, PAGE_SIZE};
use crate::refusal::Refusal;

/// How many chunk sizes there are: 8, 16, 32, ... 2,048.
pub const CLASSES: usize = (PAGE_SHIFT - MIN_SHIFT) as usize;

/// Requests above this many bytes take whole pages.
const LARGEST_CHUNK: u32 = PAGE_SIZE / 2;

/// Chunks at the start of a page that its own bitmap occupies, by class.
const OWN_CHUNKS: [u32; CLASSES] = [8, 2, 1, 0, 0, 0, 0, 0, 0];

/// One of the nine chunk sizes, 0 to 8 in order of size.
#[derive(Clone, Copy, Debug, PartialEq, Eq)]
pub struct Class(u32);

impl Class {
    /// The class with this number, if there is one.
    pub fn new(number: u32) -> Option<Class> {
        ((number as usize) < CLASSES).then_some(Class(number))
    }

    /// All classes in order of size.
    pub fn all() -> impl Iterator<Item = Class> {
        (0..CLASSES as u32).map(Class)
    }

    /// The class's number as stored in a page record.
    pub fn number(self) -> u32 {
        self.0
    }

    /// The class's place in arrays and among the class records.
    pub fn index(self) -> usize {
        self.0 as usize
    }

    /// Binary logarithm of the chunk size.
    pub fn shift(self) -> u32 {
        MIN_SHIFT + self.0
    }

    /// Bytes in a chunk.
    pub fn chunk_size(self) -> u32 {
        1 << self.shift()
    }

    /// Chunks a page is cut into, the bitmap's own among them.
    pub fn chunks(self) -> u32 {
        PAGE_SIZE >> self.shift()
    }

    /// Chunks the bitmap itself occupies: always marked, never handed out.
    pub fn own_chunks(self) -> u32 {
        OWN_CHUNKS[self.index()]
    }

    /// Chunks that one page of this class adds to `total`: those that serve callers.
    pub fn counted_chunks(self) -> u32 {
        self.chunks() - self.own_chunks()
    }

    /// Whether the bitmap is too long for the page record and lies in the page.
    pub fn bitmap_in_page(self) -> bool {
        self.chunks() > u64::BITS
    }

    /// Length of the bitmap in 64-bit words, chunk 0 in the top bit of the first.
    pub fn bitmap_words(self) -> usize {
        self.chunks().div_ceil(u64::BITS) as usize
    }

    /// Every bitmap word of a page without a free chunk.
    pub fn full_word(self) -> u64 {
        top_bits(self.chunks())
    }

    /// The first bitmap word with only the bitmap's own chunks marked.
    pub fn own_word(self) -> u64 {
        top_bits(self.own_chunks())
    }
}

/// A word whose topmost `count` bits are set, all of them from 64 on.
fn top_bits(count: u32) -> u64 {
    !u64::MAX.checked_shr(count).unwrap_or(0)
}

/// What a request asks of the pool.
#[derive(Clone, Copy, Debug, PartialEq, Eq)]
pub enum Need {
    /// One chunk of a class.
    Chunk(Class),
    /// A run of this many pages.
    Run(u32),
}

/// What serves a request of `size` bytes; nothing serves one of 0.
pub fn need(size: u32) -> Result<Need, Refusal> {
    if size == 0 {
        Err(Refusal::NothingAsked)
    } else if size > LARGEST_CHUNK {
        Ok(Need::Run(size.div_ceil(PAGE_SIZE)))
    } else {
        let shift = size.next_power_of_two().trailing_zeros();
        Ok(Need::Chunk(Class(shift.saturating_sub(MIN_SHIFT))))
    }
}
