//! The nine chunk sizes, by tables: class 0 has chunks of 8 bytes, class 8 of
//! 2,048.

/// How many classes there are.
pub const CLASSES: usize = 9;

/// Requests above this many bytes take whole pages.
const LARGEST_CHUNK: u32 = 2_048;

/// Classes below this one keep their map in the page.
pub const FIRST_IN_RECORD: usize = 3;

/// The mark of the first chunk of a map's word.
pub const FIRST_MARK: u64 = 1 << 63;

/// Chunks that the map itself takes.
pub const OWN: [u32; CLASSES] = [8, 2, 1, 0, 0, 0, 0, 0, 0];

/// A full page's map, for classes that keep it in the record.
pub const FULL: [u64; CLASSES] = by_class(CHUNKS);

/// The first word of the map of a page without a block.
pub const UNUSED: [u64; CLASSES] = by_class(OWN);

/// Chunks that a page is cut into.
pub const CHUNKS: [u32; CLASSES] = [512, 256, 128, 64, 32, 16, 8, 4, 2];

/// Chunks of a page that serve callers.
pub const SERVING: [u32; CLASSES] = [504, 254, 127, 64, 32, 16, 8, 4, 2];

/// Whether a chunk serves `size` bytes. One test for both ends: 0, which nothing
/// serves, is left to the rarer way of whole pages.
#[inline]
pub fn takes_chunk(size: u32) -> bool {
    size.wrapping_sub(1) < LARGEST_CHUNK
}

/// The class of the smallest chunk that holds `size` bytes, 1 to 2,048.
#[inline]
pub fn class_of(size: u32) -> usize {
    // Sizes up to 8 all have a 7 here.
    ((size - 1) | 7).ilog2() as usize - 2
}

/// Binary logarithm of the chunk size.
#[inline]
pub fn shift(class: usize) -> usize {
    class + 3
}

/// Words of the map of a class that keeps it in the page.
#[inline]
pub fn map_words(class: usize) -> usize {
    8 >> class
}

/// Words with so many of their top bits set.
const fn by_class(counts: [u32; CLASSES]) -> [u64; CLASSES] {
    let mut words = [u64::MAX; CLASSES];
    let mut class = 0;
    while class < CLASSES {
        if counts[class] < u64::BITS {
            words[class] = !(u64::MAX >> counts[class]);
        }
        class += 1;
    }
    words
}
