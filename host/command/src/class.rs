//! The nine classes (SPEC 2.6).

use danumrikal::{CLASSES, PAGE};

/// Bytes of a chunk.
pub const fn chunk(class: usize) -> usize {
    8 << class
}

/// Chunks of a page, the map's own among them.
pub const fn chunks(class: usize) -> usize {
    PAGE / chunk(class)
}

/// Chunks in which the map lies.
pub const fn own(class: usize) -> usize {
    match class {
        0 => 8,
        1 => 2,
        2 => 1,
        _ => 0,
    }
}

/// Chunks of a page for callers.
pub const fn counted(class: usize) -> usize {
    chunks(class) - own(class)
}

/// The class with chunks of so many bytes.
pub fn with_chunk(bytes: usize) -> Option<usize> {
    (0..CLASSES).find(|&class| chunk(class) == bytes)
}

/// The chunk size in three characters.
pub fn short(class: usize) -> String {
    match chunk(class) {
        size @ 1_024.. => format!("{}k", size / 1_024),
        size => size.to_string(),
    }
}
